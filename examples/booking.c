// A cancel undoes the innermost transaction alone: a thread that finds no seat in the train takes one in the bus, and
// what the outer transaction wrote before is kept. Each thread books twice.
int train = 1, bus = 9, asked, by_train, by_bus;

void worker(int self) {
    int i;
    for (i = 0; i < 2; i++) {
        __transaction_atomic {
            int seated = 0;
            asked = asked + 1;
            __transaction_atomic {
                train = train - 1;
                by_train = by_train + 1;
                if (train < 0) __transaction_cancel;
                seated = 1;
            }
            if (!seated) {
                bus = bus - 1;
                by_bus = by_bus + 1;
            }
        }
    }
}
