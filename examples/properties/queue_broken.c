// One transaction checks for a free place and the next one fills it: two threads may fill the last one.
int slots[2], head, count, sum;

int within(void) { return count >= 0 && count <= 2; }

void worker(int self) {
    int i, done;
    for (i = 1; i <= 2; i++) {
        __transaction_atomic { done = count < 2; }
        if (done) {
            __transaction_atomic { slots[(head + count) % 2] = i; count = count + 1; }
        }
    }
    __transaction_atomic {
        if (count > 0) { sum = sum + slots[head]; head = (head + 1) % 2; count = count - 1; }
    }
}

// txc: --threads 2..3 --always within (fails)
