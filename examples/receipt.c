// Printing can't be undone, so it needs a relaxed transaction: from the first `printf` on no other thread can change
// shared data, and the numbers on the receipt belong together.
int sold, left = 10;

void worker(int self) {
    __transaction_relaxed {
        sold = sold + 1;
        left = left - 1;
        printf("ticket %d, %d left\n", sold, left);
    }
}
