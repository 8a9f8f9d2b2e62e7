// Four faults at once: a name that is not known, a print in an atomic transaction, and two accesses outside of transactions.
int stock = 3, sold;

void worker(int self) {
    int free = stock > 0;
    if (fre) {
        __transaction_atomic {
            stock = stock - 1;
            printf("%d left\n", stock);
        }
        sold++;
    }
}
