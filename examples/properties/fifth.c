// Each thread takes a number, and the fifth one breaks the property: four threads never do.
int at, broken;

int whole(void) { return broken == 0; }

void worker(int self) {
    int mine;
    __transaction_atomic { mine = at; at = (at + 1) % 8; }
    if (mine == 4) __transaction_atomic { broken = 1; }
}

// txc: --threads 4 --always whole
// txc: --threads any --always whole (fails)
