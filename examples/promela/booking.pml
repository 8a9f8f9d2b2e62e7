/* booking.c: what an inner transaction cancels is not done at all. */
#include "threads.inc"
short train = 1, bus = 9, asked, by_train, by_bus;
active [N] proctype worker() {
    byte i;
end: do
    :: d_step {
        i < 2 -> asked++;
        if
        :: train > 0 -> train--; by_train++
        :: else -> bus--; by_bus++
        fi;
        i++;
        if :: i == 2 -> LAST(printf("END %d %d %d %d %d\n", train, bus, asked, by_train, by_bus)) :: else fi
    }
    od
}
