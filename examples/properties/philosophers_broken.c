// Philosophers who take the left fork in one transaction and the right one in the next: each may hold one and wait.
int taken[3], eating[3], meals;

int neighbours_wait(void) {
    return !(eating[0] && eating[1]) && !(eating[1] && eating[2]) && !(eating[2] && eating[0]);
}

void take(int fork) {
    int mine = 0;
    while (!mine) {
        __transaction_atomic { mine = !taken[fork]; if (mine) taken[fork] = 1; }
    }
}

void worker(int self) {
    int left = self % 3, right = (self + 1) % 3;
    take(left);
    take(right);
    __transaction_atomic { eating[left] = 1; }
    __transaction_atomic { eating[left] = 0; meals = meals + 1; }
    __transaction_atomic { taken[left] = 0; taken[right] = 0; }
}

// txc: --threads 2 --always neighbours_wait
// txc: --threads 3 --always neighbours_wait (stuck)
