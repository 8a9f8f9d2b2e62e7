// Each thread adds one, three times. No addition is lost, however the threads interleave.
int x;

void worker(int self) {
    int i;
    for (i = 0; i < 3; i++) {
        __transaction_atomic { x = x + 1; }
    }
}
