// Thread 0 raises a flag and lowers it again. A thread that looks too late waits for ever.
int up, seen;

void worker(int self) {
    int raised;
    if (self == 0) {
        __transaction_atomic { up = 1; }
        __transaction_atomic { up = 0; }
    } else {
        do { __transaction_atomic { raised = up; } } while (!raised);
        __transaction_atomic { seen = seen + 1; }
    }
}

// txc: --threads 2 --fair (fails)
