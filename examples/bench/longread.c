// read-only transactions of 512 reads, 5000 a thread; thread 0 also writes one
// cell after each; final memory: a[5] = 5000, bad = 0
int a[512], bad;
void worker(int self)
{
  int i, k, s;
  for (i = 0; i < 5000; i++) {
    __transaction_atomic {
      s = 0;
      for (k = 0; k < 512; k++)
        s += a[k];
    }
    if (s < 0 || s > 5000)
      __transaction_atomic { bad++; }
    if (self == 0)
      __transaction_atomic { a[5] = a[5] + 1; }
  }
}
