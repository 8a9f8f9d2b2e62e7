// Two seats, and buyers who check in one transaction and buy in the next: three of them can buy three seats.
int seats = 2, sold;

int no_seat_twice(void) { return sold + seats == 2 && seats >= 0; }

void worker(int self) {
    int free;
    __transaction_atomic { free = seats > 0; }
    if (free) {
        __transaction_atomic {
            seats = seats - 1;
            sold = sold + 1;
        }
    }
}

// txc: --threads 2 --always no_seat_twice
// txc: --threads 3 --always no_seat_twice (fails)
