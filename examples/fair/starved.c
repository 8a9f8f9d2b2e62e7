// Thread 0 enters a test-and-set lock until another thread has entered, so it may starve that thread.
int taken, stop;

void worker(int self) {
    int mine, stopped = 0;
    do {
        do { __transaction_atomic { mine = !taken; if (mine) taken = 1; } } while (!mine);
        __transaction_atomic { if (self) stop = 1; stopped = stop; }
        __transaction_atomic { taken = 0; }
    } while (!stopped);
}

// txc: --threads 2
// txc: --threads 2 --fair (fails)
