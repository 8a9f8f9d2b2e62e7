/* drain.c: the test of the loop is one step, the body the next one, and the read for the print the last one. */
#include "threads.inc"
byte queue[2], head, total, taken[N];
active [N] proctype worker() {
    byte k;
    do
    :: d_step { head < 2 -> skip };
       d_step { if :: head < 2 -> total = total + 7 + 2 * head; head++; taken[_pid]++ :: else fi }
    :: d_step { head == 2 -> skip };
       d_step {
           done++;
           if
           :: done == N ->
               printf("END");
               do :: k < N -> printf(" %d %d", taken[k], 2 - head); k++ :: else -> break od;
               printf(" 7 9 %d %d\n", head, total);
               k = 0
           :: else
           fi
       };
       break
    od;
end: false
}
