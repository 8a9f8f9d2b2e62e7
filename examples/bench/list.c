// sorted linked list of keys 1 to 128, node k has key k; 60 % lookups, 20 %
// inserts, 20 % removals; 40000 operations a thread; check: the keys along the
// list rise, and there are as many as count says
int key[129], next[129], count;
void worker(int self)
{
  int i, k, n, p, c, found = 0;
  unsigned r = 5u + self * 104729u;
  for (i = 0; i < 40000; i++) {
    r = r * 1664525u + 1013904223u;
    k = (r >> 8) % 128 + 1;
    n = (r >> 20) % 10;
    __transaction_atomic {
      p = 0;
      c = next[0];
      while (c != 0 && key[c] < k) {
        p = c;
        c = next[c];
      }
      if (c == k) {
        if (n < 2) {
          next[p] = next[c];
          count--;
        } else
          found++;
      } else if (n > 7) {
        key[k] = k;
        next[k] = c;
        next[p] = k;
        count++;
      }
    }
  }
}
