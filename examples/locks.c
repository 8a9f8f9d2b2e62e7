// Two locks, which the threads take in opposite orders: each can hold one and wait for the other.
int locked[2], done;

void take(int which) {
    int mine = 0;
    while (!mine) {
        __transaction_atomic { mine = !locked[which]; if (mine) locked[which] = 1; }
    }
}

void worker(int self) {
    take(self);
    take(1 - self);
    __transaction_atomic { done = done + 1; locked[0] = 0; locked[1] = 0; }
}
