// The receipt again, in an atomic transaction: a print can not be undone, so this is refused.
int sold, left = 10;

void worker(int self) {
    __transaction_atomic {
        sold = sold + 1;
        left = left - 1;
        printf("ticket %d, %d left\n", sold, left);
    }
}
