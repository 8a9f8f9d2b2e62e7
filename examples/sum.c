int x = 5; void worker(int self) { int v = __transaction_atomic (x + 1) * 2; printf("%d\n", v); }
