long long fund = 1234567890123;

void worker(int self) {
    long long part = __transaction_atomic (fund / 8);
    printf("%d cents\n", part);
}
