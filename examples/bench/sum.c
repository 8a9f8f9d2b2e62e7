// no shared data: a sum in 64 bits, four operators a turn, 1000000 turns
void worker(int self)
{
  long long sum = 0, i;
  for (i = 0; i < 1000000; i++)
    sum = sum + (i & 255) - (sum >> 4);
  printf("%lld\n", sum);
}
