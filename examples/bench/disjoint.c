// each thread writes its own 64 cells, 16 in each transaction, 40000 of them;
// final memory: each of a thread's cells is 10000
int a[512];
void worker(int self)
{
  int i, k, base = self * 64;
  for (i = 0; i < 40000; i++) {
    __transaction_atomic {
      for (k = 0; k < 16; k++)
        a[base + i % 4 * 16 + k] += 1;
    }
  }
}
