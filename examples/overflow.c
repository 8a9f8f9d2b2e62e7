// A sum out of the range of `int` is trap 1: the thread ends, and its transaction is undone.
int total = 2147483647, entries = 5;

void worker(int self) {
    __transaction_atomic {
        entries = entries + 1;
        total = total + 1;
    }
}
