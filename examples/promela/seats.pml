int seats = 1, sold;
active [2] proctype worker() {
    bit free;
    d_step { free = seats > 0 };
    if
    :: d_step { free -> seats--; sold++; assert(sold <= 1) }
    :: !free
    fi
}
