// Two polite threads: each steps back if the other one wants to enter. Both may step back for ever.
int wants[2], entered;

void worker(int self) {
    int wait, me = self % 2;
    do {
        __transaction_atomic { wants[me] = 1; }
        __transaction_atomic { wait = wants[1 - me]; }
        if (wait) { __transaction_atomic { wants[me] = 0; } }
    } while (wait);
    __transaction_atomic { entered = entered + 1; }
    __transaction_atomic { wants[me] = 0; }
}

// txc: --threads 2
// txc: --threads 2 --fair (fails)
