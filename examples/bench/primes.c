// no shared data: primes below 200000 by trial division; text: 17984
void worker(int self)
{
  int n, d, count = 0;
  for (n = 2; n < 200000; n++) {
    int prime = 1;
    for (d = 2; d * d <= n; d++)
      if (n % d == 0) {
        prime = 0;
        break;
      }
    count += prime;
  }
  printf("%d\n", count);
}
