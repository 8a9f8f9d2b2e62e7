// Thread 0 writes four neighbours, thread 1 adds 1 to two of them. So these are 8 and 9 (thread 0 first), or 7 and 8.
unsigned a[16], n;

void worker(int self) {
    if (self == 0) {
        __transaction_atomic {
            a[6] = 1;
            a[7] = 2;
            if (n == 0) {
                a[6] = 5;
                a[7] = 6;
                a[8] = 7;
                a[9] = 8;
            }
        }
    } else {
        __transaction_atomic {
            a[8] = a[8] + 1; /*pause*/
            a[9] = a[9] + 1;
        }
    }
}
