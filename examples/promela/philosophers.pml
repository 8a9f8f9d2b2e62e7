/* properties/philosophers_broken.c: each takes the left fork in one step and the right one in the next. */
#include "threads.inc"
bit taken[3], eating[3];
byte meals;
#define LEFT (_pid % 3)
#define RIGHT ((_pid + 1) % 3)
#define SHOW printf("END %d %d %d %d %d %d %d\n", taken[0], taken[1], taken[2], eating[0], eating[1], eating[2], meals)
active [N] proctype worker() {
    d_step { !taken[LEFT] -> taken[LEFT] = 1 };
    d_step { !taken[RIGHT] -> taken[RIGHT] = 1 };
    d_step { eating[LEFT] = 1 };
    d_step { eating[LEFT] = 0; meals++ };
    d_step { taken[LEFT] = 0; taken[RIGHT] = 0; LAST(SHOW) };
end: false
}
