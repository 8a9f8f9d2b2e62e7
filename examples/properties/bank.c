// Three accounts, and threads that move money round: each moves 10 from its own to the next, twice, in one transaction.
int account[3] = {20, 20, 20};

int kept(void) {
    int i, sum = 0;
    for (i = 0; i < 3; i++) sum = sum + account[i];
    return sum == 60;
}

int covered(void) { return account[0] >= 0 && account[1] >= 0 && account[2] >= 0; }

void worker(int self) {
    int i, from = self % 3, to = (self + 1) % 3;
    for (i = 0; i < 2; i++) {
        __transaction_atomic {
            if (account[from] >= 10) {
                account[from] = account[from] - 10;
                account[to] = account[to] + 10;
            }
        }
    }
}

// txc: --threads 2..3 --always kept,covered
