// recursion; text: 196418
int fib(int n)
{
  if (n < 2)
    return n;
  return fib(n - 1) + fib(n - 2);
}
void worker(int self) { printf("%d\n", fib(27)); }
