// no shared data: eight operators a turn, 1000000 turns
void worker(int self)
{
  int i, k;
  unsigned x = 1, y = 2;
  for (i = 0; i < 1000; i++)
    for (k = 0; k < 1000; k++) {
      x = x * 1664525u + 1013904223u;
      y = (y ^ x >> 7) + (x & 1023u) - (y >> 3);
    }
  printf("%u\n", x ^ y);
}
