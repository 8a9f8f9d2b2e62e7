// Philosophers, each with a fork to the left and one to the right, who take both in one transaction and put both back.
int taken[3], eating[3], meals;

int neighbours_wait(void) {
    return !(eating[0] && eating[1]) && !(eating[1] && eating[2]) && !(eating[2] && eating[0]);
}

void worker(int self) {
    int mine = 0, left = self % 3, right = (self + 1) % 3;
    while (!mine) {
        __transaction_atomic {
            mine = !taken[left] && !taken[right];
            if (mine) { taken[left] = 1; taken[right] = 1; }
        }
    }
    __transaction_atomic { eating[left] = 1; }
    __transaction_atomic { eating[left] = 0; meals = meals + 1; }
    __transaction_atomic { taken[left] = 0; taken[right] = 0; }
}

// txc: --threads 2..3 --always neighbours_wait
