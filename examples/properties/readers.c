// Up to three readers, or one writer. Even threads read, and odd ones write.
int readers, writing, reading_now, writing_now;

int apart(void) { return writing_now <= 1 && (writing_now == 0 || reading_now == 0); }

void worker(int self) {
    int writes = self % 2, go;
    while (1) {
        go = 0;
        if (writes) {
            while (!go) { __transaction_atomic { go = !writing && readers == 0; if (go) writing = 1; } }
            __transaction_atomic { writing_now = writing_now + 1; }
            __transaction_atomic { writing_now = writing_now - 1; }
            __transaction_atomic { writing = 0; }
        } else {
            while (!go) { __transaction_atomic { go = !writing && readers < 3; if (go) readers = readers + 1; } }
            __transaction_atomic { reading_now = reading_now + 1; }
            __transaction_atomic { reading_now = reading_now - 1; }
            __transaction_atomic { readers = readers - 1; }
        }
    }
}

// txc: --threads any --always apart
