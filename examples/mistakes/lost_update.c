// Clerks pay money into one account. At the end, the balance should have grown by the sum of all deposits.
// Mistake: a deposit reads the balance in one transaction and writes it in the next.
int balance = 100, deposited;

int no_deposit_lost(void) { return balance == 100 + deposited; }

void deposit(int amount) {
    int seen;
    __transaction_atomic { seen = balance; }
    __transaction_atomic {
        balance = seen + amount;
        deposited = deposited + amount;
    }
}

void worker(int self) {
    deposit(10 * (self + 1));
}

// txc: --threads 2 --final no_deposit_lost (fails)
