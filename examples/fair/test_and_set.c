// A test-and-set lock, which each thread enters twice. A thread may be overtaken again and again, but only by threads
// that enter, and these end.
int taken, entered;

void worker(int self) {
    int i, mine;
    for (i = 0; i < 2; i++) {
        do { __transaction_atomic { mine = !taken; if (mine) taken = 1; } } while (!mine);
        __transaction_atomic { entered = entered + 1; }
        __transaction_atomic { taken = 0; }
    }
}

// txc: --threads 3 --fair
