// Threads empty a queue together. The loop condition reads the head in a transaction of its own, so the next one, which
// takes a number, has to check again.
int queue[2] = {7, 9}, head, total;

void worker(int self) {
    int taken = 0;
    while (__transaction_atomic (head) < 2) {
        __transaction_atomic {
            if (head < 2) {
                total = total + queue[head];
                head++;
                taken++;
            }
        }
    }
    printf("%d taken, %d left\n", taken, 2 - __transaction_atomic (head));
}
