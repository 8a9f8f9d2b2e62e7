// An array is cleared, and the transaction is cancelled: its first values stay.
unsigned a[8] = {1, 2, 3, 4}, n;

void worker(int self) {
    __transaction_atomic {
        for (int i = 0; i < 8; i++) a[i] = 0;
        if (n == 0) __transaction_cancel;
    }
}
