// Cents that no `int` can hold: each payment is an eighth of the rest of the fund, and the sum of both never changes.
long long fund = 1234567890123, paid;
int payments;

void worker(int self) {
    int i;
    for (i = 0; i < 3; i++) {
        long long part;
        __transaction_atomic {
            part = fund / 8;
            fund = fund - part;
            paid = paid + part;
            payments++;
        }
        printf("%lld dollars, %d cents\n", part / 100, (int)(part % 100));
    }
}
