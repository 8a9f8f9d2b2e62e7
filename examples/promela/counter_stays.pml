/* counter.c: its processes stay at their last line. */
#include "threads.inc"
byte x;
active [N] proctype worker() {
    byte i;
    do
    :: d_step { i < 3 -> x++; i++ }
    :: d_step { i == 3 -> LAST(printf("END %d\n", x)) }; break
    od;
end: false
}
