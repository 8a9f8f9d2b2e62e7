/* hashset.c: each insertion is one step, the search for a place included. */
#include "threads.inc"
byte place[16], count, added[N];
active [N] proctype worker() {
    byte i = 1, at, key;
end: do
    :: d_step {
        i < 5 -> key = i * (_pid + 1); at = (key * 7) & 15;
        do :: place[at] != 0 && place[at] != key -> at = (at + 1) & 15 :: else -> break od;
        if :: place[at] == 0 -> place[at] = key; count++; added[_pid]++ :: else fi;
        at = 0; key = 0; i++;
        if
        :: i == 5 ->
            done++;
            if
            :: done == N ->
                printf("END");
                do :: at < N -> printf(" %d", added[at]); at++ :: else -> break od;
                at = 0;
                do :: at < 16 -> printf(" %d", place[at]); at++ :: else -> break od;
                printf(" %d\n", count);
                at = 0
            :: else
            fi
        :: else
        fi
    }
    od
}
