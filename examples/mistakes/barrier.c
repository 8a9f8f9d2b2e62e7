// Two threads work in rounds, with a barrier after each. Neither begins a round before both have finished the last one.
// Mistake: the second thread to arrive resets the counter. If it arrives at the next barrier before the first one looks
// again, both wait for ever.
int arrived, rounds[2];

void barrier(void) {
    __transaction_atomic {
        arrived = arrived + 1;
        if (arrived == 2) arrived = 0;
    }
    while (__transaction_atomic (arrived > 0)) ;
}

void worker(int self) {
    int i;
    for (i = 0; i < 2; i++) {
        __transaction_atomic { rounds[self % 2] = rounds[self % 2] + 1; }
        barrier();
    }
}

// txc: --threads 2 (stuck)
