// A bounded queue: one transaction puts or takes, and a cancel undoes what does not fit.
int slots[4], head, count, refused;

int put(int value) {
    int done = 0;
    __transaction_atomic {
        slots[(head + count) % 4] = value;
        count++;
        if (count > 4) __transaction_cancel;
        done = 1;
    }
    return done;
}

void worker(int self) {
    int i;
    for (i = 1; i <= 6; i++) {
        if (!put(i * i)) {
            __transaction_atomic { refused++; }
        }
    }
    __transaction_relaxed {
        printf("%d waiting, %d refused\n", count, refused);
        while (count > 0) {
            printf("%d ", slots[head]);
            head = (head + 1) % 4;
            count--;
        }
    }
    printf("\n");
}
