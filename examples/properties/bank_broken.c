// Money leaves one account in one transaction and enters the next one in another: in between it is missing.
int account[3] = {20, 20, 20};

int kept(void) {
    int i, sum = 0;
    for (i = 0; i < 3; i++) sum = sum + account[i];
    return sum == 60;
}

void worker(int self) {
    int i, free, from = self % 3, to = (self + 1) % 3;
    for (i = 0; i < 2; i++) {
        __transaction_atomic { free = account[from] >= 10; if (free) account[from] = account[from] - 10; }
        if (free) __transaction_atomic { account[to] = account[to] + 10; }
    }
}

// txc: --threads 2 --final kept
// txc: --threads 2 --always kept (fails)
