// An owner takes jobs from the back of its queue, and idle threads steal from the front. Each job should be done once.
// Mistake: the owner looks for a job in one transaction and takes it in the next. A thief may steal it in between.
int front, back = 2, done[2];

int each_done_once(void) { return done[0] == 1 && done[1] == 1; }

int take(void) {
    int job = -1;
    __transaction_atomic { if (front < back) job = back - 1; }
    if (job >= 0) __transaction_atomic { back = job; }
    return job;
}

int steal(void) {
    int job = -1;
    __transaction_atomic {
        if (front < back) {
            job = front;
            front = front + 1;
        }
    }
    return job;
}

void worker(int self) {
    int job;
    do {
        if (self == 0) job = take();
        else job = steal();
        if (job >= 0) __transaction_atomic { done[job] = done[job] + 1; }
    } while (job >= 0);
}

// txc: --threads 2 --final each_done_once (fails)
