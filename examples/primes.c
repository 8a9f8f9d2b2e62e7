// Counts the primes below 100 by trial division, and leaves the count in shared memory.
int primes;

void worker(int self) {
    int n, count = 0;
    for (n = 2; n < 100; n++) {
        int d = 2;
        while (d * d <= n && n % d != 0) d++;
        if (d * d > n) count++;
    }
    __transaction_atomic { primes = count; }
    printf("%d primes\n", count);
}
