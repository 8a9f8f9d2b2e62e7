int head, total;

void worker(int self) {
    while (head < 2) {
        __transaction_atomic { head++; }
    }
}
