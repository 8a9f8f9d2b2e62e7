// A set of numbers in a table of 16 places, without a lock of its own: each insertion is one step.
int place[16], count;

int insert(int key) {
    int at = key * 7 & 15, added = 0;
    __transaction_atomic {
        while (place[at] != 0 && place[at] != key) at = at + 1 & 15;
        if (place[at] == 0) {
            place[at] = key;
            count = count + 1;
            added = 1;
        }
    }
    return added;
}

void worker(int self) {
    int i, added = 0;
    for (i = 1; i <= 4; i++) added = added + insert(i * (self + 1));
    printf("%d added\n", added);
}
