/* properties/queue.c: a thread that finds no place, or no number, is blocked. */
#include "threads.inc"
byte slots[2], head, count, sum;
#define PUT(value, last) d_step { count < 2 -> slots[(head + count) % 2] = value; count++; last }
#define TAKE(last) d_step { count > 0 -> sum = sum + slots[head]; head = (head + 1) % 2; count--; last }
#define SHOW LAST(printf("END %d %d %d %d %d\n", slots[0], slots[1], head, count, sum))
active [(N + 1) / 2] proctype even() { PUT(1, skip); PUT(2, skip); PUT(3, SHOW); end: false }
active [N / 2] proctype odd() { TAKE(skip); TAKE(skip); TAKE(SHOW); end: false }
