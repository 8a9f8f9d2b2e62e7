// 64 accounts: 200000 transfers a thread, every 16th step sums them all in a
// read-only transaction; final memory: wrong = 0 and the accounts sum to 6400
int account[64], wrong, filled;
void worker(int self)
{
  int i, from, to, sum, k;
  unsigned r = 12345u + self * 977u;
  __transaction_atomic {
    if (!filled) {
      for (k = 0; k < 64; k++)
        account[k] = 100;
      filled = 1;
    }
  }
  for (i = 0; i < 200000; i++) {
    r = r * 1664525u + 1013904223u;
    from = r >> 8 & 63;
    to = r >> 16 & 63;
    __transaction_atomic {
      account[from] -= 1;
      account[to] += 1;
    }
    if (i % 16 == 0) {
      __transaction_atomic {
        sum = 0;
        for (k = 0; k < 64; k++)
          sum += account[k];
      }
      if (sum != 6400)
        __transaction_atomic { wrong++; }
    }
  }
}
