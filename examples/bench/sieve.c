// one transaction of some 21000 reads and writes sieves 4000 cells, 200 times a
// thread; final memory: count = 550, and composite = 0 at 0, 1 and the primes
int composite[4000], count;
void worker(int self)
{
  int r, i, j, n;
  for (r = 0; r < 200; r++) {
    __transaction_atomic {
      for (i = 0; i < 4000; i++)
        composite[i] = 0;
      for (i = 2; i < 4000; i++)
        if (composite[i] == 0)
          for (j = i + i; j < 4000; j += i)
            composite[j] = 1;
      n = 0;
      for (i = 2; i < 4000; i++)
        if (composite[i] == 0)
          n++;
      count = n;
    }
  }
}
