// A ticket lock made of transactions: each thread takes a number, waits in a loop until it is served, and enters twice.
// `most` is the largest number of threads that were inside at one time.
int next, serving, inside, most, entered;

void worker(int self) {
    int i, mine, mine_now;
    for (i = 0; i < 2; i++) {
        __transaction_atomic { mine = next; next = next + 1; }
        do {
            __transaction_atomic { mine_now = serving == mine; }
        } while (!mine_now);
        __transaction_atomic { inside = inside + 1; if (inside > most) most = inside; }
        __transaction_atomic { inside = inside - 1; entered = entered + 1; serving = serving + 1; }
    }
}
