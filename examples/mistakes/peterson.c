// Peterson's algorithm for two threads. A thread announces that it wants to enter, gives the turn to the other one, and
// waits while the other one wants to enter and has the turn.
// Mistake: the first two lines of `enter` are swapped.
int wants[2], turn, inside;

int mutual_exclusion(void) { return inside <= 1; }

void enter(int self) {
    int other = 1 - self;
    __transaction_atomic { turn = other; }
    __transaction_atomic { wants[self] = 1; }
    while (__transaction_atomic (wants[other]) && __transaction_atomic (turn == other)) ;
}

void leave(int self) {
    __transaction_atomic { wants[self] = 0; }
}

void worker(int self) {
    int me = self % 2;
    enter(me);
    __transaction_atomic { inside = inside + 1; }
    __transaction_atomic { inside = inside - 1; }
    leave(me);
}

// txc: --threads 2 --always mutual_exclusion (fails)
