// One seat and two buyers, who check and buy in one transaction: the seat is sold once.
int seats = 1, sold;

void worker(int self) {
    __transaction_atomic {
        if (seats > 0) {
            seats = seats - 1;
            sold = sold + 1;
        }
    }
}
