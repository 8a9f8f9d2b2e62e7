// Thread 0 clears an array in one transaction, thread 1 reads both ends of it in another. So it prints 1 1, or 0 0.
unsigned a[8] = {1, 1, 1, 1, 1, 1, 1, 1};

void worker(int self) {
    unsigned first = 0, last = 0;
    if (self == 0) {
        __transaction_atomic {
            for (int i = 0; i < 8; i++) a[i] = 0;
        }
    } else {
        __transaction_atomic {
            first = a[0]; /*pause*/
            last = a[7];
        }
        printf("%u %u\n", first, last);
    }
}
