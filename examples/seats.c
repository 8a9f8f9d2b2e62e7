// One seat and two buyers, who check and buy in two transactions: the seat can be sold twice.
int seats = 1, sold;

void worker(int self) {
    int free;
    __transaction_atomic { free = seats > 0; }
    if (free) {
        __transaction_atomic {
            seats = seats - 1;
            sold = sold + 1;
        }
    }
}
