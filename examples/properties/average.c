// A property may trap, for example by a division by 0, or may never end.
int sum, count, steps = 1;

int average_is_small(void) { return sum / count < 10; }

int comes_to_an_end(void) {
    int i = 0;
    while (i != count * 2) i = i + 2 * steps;
    return 1;
}

void worker(int self) {
    __transaction_atomic { sum = sum + self; }
    __transaction_atomic { count = count + 1; }
    __transaction_atomic { steps = 0; }
}

// txc: --threads 2 --always average_is_small,comes_to_an_end --steps 1000 (fails)
