/* queue.c: a number that does not fit is one step, and the count of those refused the next. */
#include "threads.inc"
byte slots[4], head, count, refused;
typedef text { byte waiting, refused, list[4] };
text shown[N];
active [N] proctype worker() {
    byte i = 1, k, n;
end: do
    :: d_step { i < 7 && count < 4 -> slots[(head + count) % 4] = i * i; count++; i++ }
    :: d_step { i < 7 && count == 4 -> skip };
       d_step { refused++; i++ }
    :: d_step {
        i == 7 -> i = 8; shown[_pid].waiting = count; shown[_pid].refused = refused;
        do
        :: count > 0 -> shown[_pid].list[k] = slots[head]; k++; head = (head + 1) % 4; count--
        :: else -> break
        od;
        k = 0; done++;
        if
        :: done == N ->
            printf("END");
            do
            :: n < N ->
                printf(" %d %d", shown[n].waiting, shown[n].refused);
                do :: k < shown[n].waiting -> printf(" %d", shown[n].list[k]); k++ :: else -> break od;
                k = 0; n++
            :: else -> break
            od;
            printf(" %d %d %d %d %d %d %d\n", slots[0], slots[1], slots[2], slots[3], head, count, refused);
            n = 0
        :: else
        fi
    }
    od
}
