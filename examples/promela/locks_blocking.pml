/* locks.c, with a guard that blocks: SPIN reports the deadlock as an invalid end state. */
#include "threads.inc"
bit locked[2];
active [2] proctype worker() {
    d_step { !locked[_pid] -> locked[_pid] = 1 };
    d_step { !locked[1 - _pid] -> locked[1 - _pid] = 1 };
    d_step { locked[0] = 0; locked[1] = 0; LAST(printf("END %d %d %d\n", locked[0], locked[1], done)) };
end: false
}
