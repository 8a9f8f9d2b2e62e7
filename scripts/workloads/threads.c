// Runs `worker` in as many threads as its argument says, for the compiler's own transactions.
#include <pthread.h>
#include <stdlib.h>

void worker(int self);

static void *start(void *number)
{
  worker((int)(long)number);
  return 0;
}

int main(int count, char **words)
{
  int threads = count > 1 ? atoi(words[1]) : 1;
  pthread_t all[64];
  for (int i = 0; i < threads; i++)
    if (pthread_create(&all[i], 0, start, (void *)(long)i))
      return 1;
  for (int i = 0; i < threads; i++)
    pthread_join(all[i], 0);
  return 0;
}
