// Two seats, and buyers who check and buy in one transaction: no seat is sold twice.
int seats = 2, buyer[2] = {-1, -1}, sold;

int no_seat_twice(void) { return sold + seats == 2 && seats >= 0; }

void worker(int self) {
    __transaction_atomic {
        if (seats > 0) {
            seats = seats - 1;
            buyer[seats] = self;
            sold = sold + 1;
        }
    }
}

// txc: --threads 2..4 --always no_seat_twice
