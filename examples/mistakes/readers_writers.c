// Readers may read at the same time, but a writer must be alone: it changes the halves of a record one after the other.
// Mistake: a writer waits for other writers, but not for readers.
int readers, writing, left, right, torn;

int no_torn_read(void) { return torn == 0; }

void read_record(void) {
    int first, second, may_read = 0;
    while (!may_read) {
        __transaction_atomic {
            may_read = !writing;
            if (may_read) readers = readers + 1;
        }
    }
    __transaction_atomic { first = left; }
    __transaction_atomic { second = right; }
    __transaction_atomic {
        readers = readers - 1;
        if (first != second) torn = torn + 1;
    }
}

void write_record(void) {
    int may_write = 0;
    while (!may_write) {
        __transaction_atomic {
            may_write = !writing;
            if (may_write) writing = 1;
        }
    }
    __transaction_atomic { left = left + 1; }
    __transaction_atomic { right = right + 1; }
    __transaction_atomic { writing = 0; }
}

void worker(int self) {
    if (self % 2 == 0) read_record();
    else write_record();
}

// txc: --threads 2 --always no_torn_read (fails)
