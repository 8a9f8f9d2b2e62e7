// A cancel undoes all that its transaction wrote: a thread takes 70 from the account, or nothing. It tries twice.
int balance = 100, refused;

int withdraw(int amount) {
    int paid = 0;
    __transaction_atomic {
        balance = balance - amount;
        if (balance < 0) __transaction_cancel;
        paid = 1;
    }
    return paid;
}

void worker(int self) {
    int i;
    for (i = 0; i < 2; i++) {
        if (!withdraw(70)) {
            __transaction_atomic { refused = refused + 1; }
        }
    }
}
