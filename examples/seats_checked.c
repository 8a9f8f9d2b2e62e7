// As seats.c, with a check: if the seat is sold twice, a division by 0 ends the thread.
int seats = 1, sold;

void worker(int self) {
    int free;
    __transaction_atomic { free = seats > 0; }
    if (free) {
        __transaction_atomic {
            seats = seats - 1;
            sold = sold + 1;
            free = 1 / (sold <= 1);
        }
    }
}
