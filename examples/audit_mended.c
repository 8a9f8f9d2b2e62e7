// Thread 0 moves 50 in one transaction, so thread 1 always finds all of the money.
int checking = 120, savings = 40;

void worker(int self) {
    int total;
    if (self == 0) {
        __transaction_atomic {
            checking = checking - 50;
            savings = savings + 50;
        }
    } else {
        __transaction_atomic { total = checking + savings; }
        printf("%d\n", total);
    }
}
