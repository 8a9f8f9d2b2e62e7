/* counter.c: its processes end. */
#include "threads.inc"
byte x;
active [N] proctype worker() {
    byte i;
    do
    :: d_step { i < 3 -> x++; i++ }
    :: d_step { i == 3 -> LAST(printf("END %d\n", x)) }; break
    od
}
