// Thread 0 reads 512 cells in each of 2000 transactions, while each other thread commits a write to a cell of its own,
// over and over, until thread 0 is done. scripts/run_speed.py puts other numbers here, and has them write to cells of a.
int a[4000], c[64], done;
void worker(int self)
{
  int i, k, s, d = 0;
  if (self == 0) {
    for (i = 0; i < 2000; i++) {
      __transaction_atomic {
        s = 0;
        for (k = 0; k < 512; k++)
          s = s + a[k];
      }
    }
    __transaction_atomic { done = 1; }
  } else {
    while (d == 0) {
      __transaction_atomic {
        d = done;
        c[self] = c[self] + 1;
      }
    }
  }
}
