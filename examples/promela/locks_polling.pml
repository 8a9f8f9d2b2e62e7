/* locks.c, with a loop that tests a lock and tries again: SPIN reports no error. */
bit locked[2];
inline take(which) {
    mine = 0;
    do
    :: !mine -> atomic { mine = !locked[which]; if :: mine -> locked[which] = 1 :: else fi }
    :: mine -> break
    od
}
active [2] proctype worker() {
    bit mine;
    take(_pid);
    take(1 - _pid);
    skip;
    d_step { locked[0] = 0; locked[1] = 0 }
}
