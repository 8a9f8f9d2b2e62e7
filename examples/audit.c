// Thread 0 moves 50 in two transactions. Thread 1 adds up both accounts, and can find 50 missing.
int checking = 120, savings = 40;

void worker(int self) {
    int total;
    if (self == 0) {
        __transaction_atomic { checking = checking - 50; }
        __transaction_atomic { savings = savings + 50; }
    } else {
        __transaction_atomic { total = checking + savings; }
        printf("%d\n", total);
    }
}
