int frames = 3;

void worker(int self) {
    __transaction_atomic {
        frames = frames - 1;
        if (frames < 0) __transaction_cancel [[outer]];
    }
}
