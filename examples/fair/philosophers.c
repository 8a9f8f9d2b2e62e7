// Three philosophers who take the left fork, and put it back if the right one is taken. All may do so for ever.
int fork[3], meals;

void worker(int self) {
    int mine, left = self % 3, right = (self + 1) % 3;
    do {
        do { __transaction_atomic { mine = !fork[left]; if (mine) fork[left] = 1; } } while (!mine);
        __transaction_atomic { mine = !fork[right]; if (mine) fork[right] = 1; }
        if (!mine) { __transaction_atomic { fork[left] = 0; } }
    } while (!mine);
    __transaction_atomic { meals = meals + 1; fork[left] = 0; fork[right] = 0; }
}

// txc: --threads 3
// txc: --threads 3 --fair (fails)
