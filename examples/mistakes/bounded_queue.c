// Producers put numbers into a queue with two places, and consumers take them out. A consumer waits while it is empty.
// Mistake: a consumer waits in one transaction and takes the number in the next, without looking again.
int slots[2], head, count, sum;

int within_bounds(void) { return 0 <= count && count <= 2; }

void put(int number) {
    int done = 0;
    while (!done) {
        __transaction_atomic {
            done = count < 2;
            if (done) {
                slots[(head + count) % 2] = number;
                count = count + 1;
            }
        }
    }
}

void take(void) {
    while (!__transaction_atomic (count > 0)) ;
    __transaction_atomic {
        sum = sum + slots[head];
        head = (head + 1) % 2;
        count = count - 1;
    }
}

void worker(int self) {
    if (self % 3 == 0) {
        put(1);
        put(2);
    } else {
        take();
    }
}

// txc: --threads 3 --always within_bounds (fails)
