// A cart is built as a whole or not at all: if the inner transaction finds too few wheels, one cancel undoes both.
int frames = 3, wheels = 9, built;

void worker(int self) {
    int i;
    for (i = 0; i < 3; i++) {
        __transaction_atomic [[outer]] {
            frames = frames - 1;
            __transaction_atomic {
                wheels = wheels - 4;
                if (wheels < 0) __transaction_cancel [[outer]];
            }
            built = built + 1;
        }
    }
}
