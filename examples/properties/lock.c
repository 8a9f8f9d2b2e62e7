// A lock made of transactions: one transaction tests it and takes it. Inside, a thread counts itself in and out.
int taken, inside, entered;

int alone(void) { return inside <= 1; }

void worker(int self) {
    int mine = 0;
    while (!mine) {
        __transaction_atomic { mine = !taken; if (mine) taken = 1; }
    }
    __transaction_atomic { inside = inside + 1; }
    __transaction_atomic { inside = inside - 1; entered = entered + 1; }
    __transaction_atomic { taken = 0; }
}

// txc: --threads 2..4 --always alone
