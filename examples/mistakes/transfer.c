// Threads transfer money between two accounts, in both directions. A transfer holds the locks of both accounts.
// Mistake: it locks the paying account first, so opposite transfers can each hold one lock and wait for the other.
int balance[2] = {100, 100}, locked[2];

int money_kept(void) { return balance[0] + balance[1] == 200; }

void lock(int account) {
    int mine = 0;
    while (!mine) {
        __transaction_atomic {
            mine = !locked[account];
            if (mine) locked[account] = 1;
        }
    }
}

void unlock(int account) {
    __transaction_atomic { locked[account] = 0; }
}

void transfer(int from, int to, int amount) {
    lock(from);
    lock(to);
    __transaction_atomic { balance[from] = balance[from] - amount; }
    __transaction_atomic { balance[to] = balance[to] + amount; }
    unlock(to);
    unlock(from);
}

void worker(int self) {
    if (self % 2 == 0) transfer(0, 1, 30);
    else transfer(1, 0, 50);
}

// txc: --threads 2 --final money_kept (stuck)
