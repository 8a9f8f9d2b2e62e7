// A lock that is tested in one transaction and taken in the next: two threads may find it free.
int taken, inside, entered;

int alone(void) { return inside <= 1; }

void worker(int self) {
    int mine = 0;
    while (!mine) {
        __transaction_atomic { mine = !taken; }
    }
    __transaction_atomic { taken = 1; }
    __transaction_atomic { inside = inside + 1; }
    __transaction_atomic { inside = inside - 1; entered = entered + 1; }
    __transaction_atomic { taken = 0; }
}

// txc: --threads 2 --always alone (fails)
