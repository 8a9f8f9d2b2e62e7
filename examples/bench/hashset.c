// open-addressing hash set of 1024 slots, 70 % lookups, 30 % inserts of keys
// below 700; 200000 operations a thread; check: count equals the filled slots
int slot[1024], count, seen;
void worker(int self)
{
  int i, k, n, h, found = 0;
  unsigned r = 5u + self * 104729u;
  for (i = 0; i < 200000; i++) {
    r = r * 1664525u + 1013904223u;
    k = (r >> 8) % 700 + 1;
    n = (r >> 20) % 10;
    __transaction_atomic {
      h = k * 7 & 1023;
      while (slot[h] != 0 && slot[h] != k)
        h = h + 1 & 1023;
      if (slot[h] == k)
        found++;
      else if (n < 3) {
        slot[h] = k;
        count++;
      }
    }
  }
  __transaction_atomic {
    seen = 0;
    for (i = 0; i < 1024; i++)
      if (slot[i] != 0)
        seen++;
  }
}
