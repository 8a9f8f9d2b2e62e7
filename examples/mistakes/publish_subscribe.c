// A publisher writes a message and announces it. Subscribers wait for the announcement, and then read the message.
// Mistake: the publisher announces the message before it writes it.
int message, announced, empty_reads;

int no_empty_read(void) { return empty_reads == 0; }

void publish(int text) {
    __transaction_atomic { announced = 1; }
    __transaction_atomic { message = text; }
}

int receive(void) {
    int text;
    while (!__transaction_atomic (announced)) ;
    __transaction_atomic { text = message; }
    return text;
}

void worker(int self) {
    if (self == 0) {
        publish(42);
    } else if (receive() != 42) {
        __transaction_atomic { empty_reads = empty_reads + 1; }
    }
}

// txc: --threads 2 --always no_empty_read (fails)
