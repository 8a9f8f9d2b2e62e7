// A queue of two places: even threads put in three numbers, odd ones take three. Threads wait for a place or a number.
int slots[2], head, count, sum;

int within(void) { return count >= 0 && count <= 2; }
int all_taken(void) { return count == 0 && sum % 6 == 0; }

void worker(int self) {
    int i, done;
    for (i = 1; i <= 3; i++) {
        do {
            __transaction_atomic {
                if (self % 2 == 0) {
                    done = count < 2;
                    if (done) { slots[(head + count) % 2] = i; count = count + 1; }
                } else {
                    done = count > 0;
                    if (done) { sum = sum + slots[head]; head = (head + 1) % 2; count = count - 1; }
                }
            }
        } while (!done);
    }
}

// txc: --threads 2 --always within --final all_taken
// txc: --threads 4 --always within --final all_taken
