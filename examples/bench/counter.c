// one shared counter; final memory: x = 500000 * threads
int x;
void worker(int self)
{
  int i;
  for (i = 0; i < 500000; i++) {
    __transaction_atomic { x = x + 1; }
  }
}
