/* ticket.c: the loop that waits is a guard that blocks. */
#include "threads.inc"
byte next, serving, inside, most, entered;
#define ENTER(last) \
    d_step { mine = next; next++ }; \
    d_step { serving == mine -> mine = 0 }; \
    d_step { inside++; if :: inside > most -> most = inside :: else fi }; \
    d_step { inside--; entered++; serving++; last }
active [N] proctype worker() {
    byte mine;
    ENTER(skip);
    ENTER(LAST(printf("END %d %d %d %d %d\n", next, serving, inside, most, entered)));
end: false
}
