// Peterson's algorithm for two threads, each of which enters twice.
int wants[2], turn, inside;

int mutual_exclusion(void) { return inside <= 1; }

void enter(int self) {
    int other = 1 - self;
    __transaction_atomic { wants[self] = 1; }
    __transaction_atomic { turn = other; }
    while (__transaction_atomic (wants[other]) && __transaction_atomic (turn == other)) ;
}

void leave(int self) {
    __transaction_atomic { wants[self] = 0; }
}

void worker(int self) {
    int i, me = self % 2;
    for (i = 0; i < 2; i++) {
        enter(me);
        __transaction_atomic { inside = inside + 1; }
        __transaction_atomic { inside = inside - 1; }
        leave(me);
    }
}

// txc: --threads 2 --always mutual_exclusion
// txc: --threads 2 --fair
