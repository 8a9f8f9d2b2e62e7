// An inner transaction writes what the outer one has written, and is cancelled: what the outer one wrote stays.
unsigned g;

void worker(int self) {
    __transaction_atomic {
        g = 0;
        __transaction_atomic {
            g = 1;
            __transaction_cancel;
        }
    }
}
