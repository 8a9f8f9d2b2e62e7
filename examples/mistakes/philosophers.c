// Three philosophers share three forks, and each needs two of them to eat. If each took the left fork first, all could
// hold one and wait for the other, so the last philosopher takes the right one first.
// Mistake: numbers begin at 0, so there is no philosopher 3.
int taken[3], meals;

void take(int fork) {
    int mine = 0;
    while (!mine) {
        __transaction_atomic {
            mine = !taken[fork];
            if (mine) taken[fork] = 1;
        }
    }
}

void put_back(int fork) {
    __transaction_atomic { taken[fork] = 0; }
}

void worker(int self) {
    int left = self % 3, right = (self + 1) % 3;
    if (self == 3) {
        take(right);
        take(left);
    } else {
        take(left);
        take(right);
    }
    __transaction_atomic { meals = meals + 1; }
    put_back(left);
    put_back(right);
}

// txc: --threads 3 (stuck)
