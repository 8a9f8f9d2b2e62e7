int x;
void worker(int self) { x = 1; }
