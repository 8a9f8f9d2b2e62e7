// Both accounts change in one step, or neither does.
int checking = 120, savings = 40;

void worker(int self) {
    __transaction_atomic {
        checking = checking - 50;
        savings = savings + 50;
    }
    __transaction_atomic {
        savings = savings + 1;
    }
}
