// NOrec (Dalessandro, Spear, Scott, PPoPP 2010) by hand, and six workloads of examples/bench over it:
// norec NAME THREADS. Accesses to shared words are sequentially consistent.
#include <pthread.h>
#include <stdatomic.h>
#include <stdbool.h>
#include <stdio.h>
#include <stdlib.h>
#include <string.h>

enum { CELLS = 1152, MOST = 4096 };

static atomic_uint lock;
static atomic_int cell[CELLS];

// A transaction: what it has read, and what it writes, with the place of each cell that it has written in its log.
struct tx {
  unsigned snapshot, round, written[CELLS];
  int place[CELLS], reads, writes;
  struct entry { int at, value; } read[MOST], write[MOST];
};

static unsigned unlocked(void)
{
  unsigned now;
  while ((now = atomic_load(&lock)) & 1)
    __builtin_ia32_pause();
  return now;
}

static void begin(struct tx *t)
{
  t->round++;
  t->reads = t->writes = 0;
  t->snapshot = unlocked();
}

static bool validate(struct tx *t)
{
  for (;;) {
    unsigned now = unlocked();
    for (int k = 0; k < t->reads; k++)
      if (atomic_load(&cell[t->read[k].at]) != t->read[k].value)
        return false;
    if (atomic_load(&lock) == now) {
      t->snapshot = now;
      return true;
    }
  }
}

static inline bool get(struct tx *t, int at, int *value)
{
  if (t->writes && t->written[at] == t->round) {
    *value = t->write[t->place[at]].value;
    return true;
  }
  *value = atomic_load(&cell[at]);
  while (__builtin_expect(atomic_load(&lock) != t->snapshot, 0)) {
    if (!validate(t))
      return false;
    *value = atomic_load(&cell[at]);
  }
  t->read[t->reads].at = at;
  t->read[t->reads++].value = *value;
  return true;
}

static inline void put(struct tx *t, int at, int value)
{
  if (t->written[at] != t->round) {
    t->written[at] = t->round;
    t->place[at] = t->writes;
    t->write[t->writes++].at = at;
  }
  t->write[t->place[at]].value = value;
}

static inline bool commit(struct tx *t)
{
  if (!t->writes)
    return true;
  unsigned from = t->snapshot;
  while (!atomic_compare_exchange_strong(&lock, &from, from + 1)) {
    if (!validate(t))
      return false;
    from = t->snapshot;
  }
  for (int k = 0; k < t->writes; k++)
    atomic_store(&cell[t->write[k].at], t->write[k].value);
  atomic_store(&lock, from + 2);
  return true;
}

#define GET(at, value) do { if (!get(t, at, &(value))) goto again; } while (0)
#define ADD(at, more) do { int word; GET(at, word); put(t, at, word + (more)); } while (0)
#define ATOMIC(body) do { __label__ again; again: begin(t); body if (!commit(t)) goto again; } while (0)

static void counter(struct tx *t, int self)
{
  for (int i = 0; i < 500000; i++)
    ATOMIC({ ADD(0, 1); });
}

// the accounts, then whether they are filled, then how many sums were wrong
static void bank(struct tx *t, int self)
{
  unsigned r = 12345u + self * 977u;
  ATOMIC({
    int filled;
    GET(64, filled);
    if (!filled) {
      for (int k = 0; k < 64; k++)
        put(t, k, 100);
      put(t, 64, 1);
    }
  });
  for (int i = 0; i < 200000; i++) {
    r = r * 1664525u + 1013904223u;
    int from = r >> 8 & 63, to = r >> 16 & 63, sum, word;
    ATOMIC({ ADD(from, -1); ADD(to, 1); });
    if (i % 16 == 0) {
      ATOMIC({
        sum = 0;
        for (int k = 0; k < 64; k++) {
          GET(k, word);
          sum += word;
        }
      });
      if (sum != 6400)
        ATOMIC({ ADD(65, 1); });
    }
  }
}

// the slots, then how many are filled
static void hashset(struct tx *t, int self)
{
  int found = 0;
  unsigned r = 5u + self * 104729u;
  for (int i = 0; i < 200000; i++) {
    r = r * 1664525u + 1013904223u;
    int k = (r >> 8) % 700 + 1, n = (r >> 20) % 10, h, word;
    ATOMIC({
      h = k * 7 & 1023;
      GET(h, word);
      while (word != 0 && word != k) {
        h = (h + 1) & 1023;
        GET(h, word);
      }
      if (word == k)
        found++;
      else if (n < 3) {
        put(t, h, k);
        ADD(1024, 1);
      }
    });
  }
}

static void longread(struct tx *t, int self)
{
  for (int i = 0; i < 5000; i++) {
    int s, word;
    ATOMIC({
      s = 0;
      for (int k = 0; k < 512; k++) {
        GET(k, word);
        s += word;
      }
    });
    if (s < 0 || s > 5000)
      ATOMIC({ ADD(512, 1); });
    if (self == 0)
      ATOMIC({ ADD(5, 1); });
  }
}

static void disjoint(struct tx *t, int self)
{
  for (int i = 0; i < 40000; i++)
    ATOMIC({
      for (int k = 0; k < 16; k++)
        ADD(self * 64 + i % 4 * 16 + k, 1);
    });
}

// the keys, then what follows each, then how many are in the list
static void list(struct tx *t, int self)
{
  enum { NEXT = 129, COUNT = 258 };
  int found = 0;
  unsigned r = 5u + self * 104729u;
  for (int i = 0; i < 40000; i++) {
    r = r * 1664525u + 1013904223u;
    int k = (r >> 8) % 128 + 1, n = (r >> 20) % 10, p, c, key, after;
    ATOMIC({
      p = 0;
      GET(NEXT, c);
      while (c != 0) {
        GET(c, key);
        if (key >= k)
          break;
        p = c;
        GET(NEXT + c, c);
      }
      if (c == k) {
        if (n < 2) {
          GET(NEXT + c, after);
          put(t, NEXT + p, after);
          ADD(COUNT, -1);
        } else
          found++;
      } else if (n > 7) {
        put(t, k, k);
        put(t, NEXT + k, c);
        put(t, NEXT + p, k);
        ADD(COUNT, 1);
      }
    });
  }
}

static const struct { const char *name; void (*work)(struct tx *, int); } workloads[] = {
  {"counter", counter}, {"bank", bank}, {"hashset", hashset},
  {"longread", longread}, {"disjoint", disjoint}, {"list", list},
};
static void (*work)(struct tx *, int);

static void *start(void *number)
{
  struct tx *t = calloc(1, sizeof *t);
  work(t, (int)(long)number);
  free(t);
  return 0;
}

int main(int count, char **words)
{
  int threads = count > 2 ? atoi(words[2]) : 1;
  pthread_t all[64];
  for (unsigned k = 0; count > 1 && k < sizeof workloads / sizeof *workloads; k++)
    if (!strcmp(words[1], workloads[k].name))
      work = workloads[k].work;
  if (!work || threads < 1 || threads > 64)
    return 2;
  for (int i = 0; i < threads; i++)
    if (pthread_create(&all[i], 0, start, (void *)(long)i))
      return 1;
  for (int i = 0; i < threads; i++)
    pthread_join(all[i], 0);
  long sum = 0;
  for (int k = 0; k < CELLS; k++)
    sum += cell[k];
  printf("%ld\n", sum);
  return 0;
}
