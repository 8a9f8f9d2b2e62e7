// What scripts/against_gcc.py links to a program whose transactions GCC compiled: it calls `worker` in its threads many
// times over, each time from the globals' first values, and prints txc's report each time, with a line `== over`
// behind it.
//
//     PROGRAM THREADS RUNS [fresh]
//
// With `fresh` each run has threads of its own. Without, the same threads make all runs, and a round of 12 seconds is
// the last one.
// In a file that scripts/lib/gcc_reports.py writes, THREADS, RUNS and FRESH stand for these words, and MAY_COME for the
// reports that may come. Then the first other report is printed, and ends the program with 1.
// `against_save`, `against_reset` and `against_show` are of a file that the script writes: what they do to the
// program's globals.
#define _GNU_SOURCE
#include <pthread.h>
#include <sched.h>
#include <stdarg.h>
#include <stdio.h>
#include <stdlib.h>
#include <string.h>
#include <time.h>

void worker(int);
void against_save(void);
void against_reset(void);
void against_show(FILE *);

#define MOST_THREADS 64
#ifdef MAY_COME
#define SECONDS 60
#else
#define SECONDS 12
#endif

static struct {
    char text[16384];
    size_t length;
} printed[MOST_THREADS];
static __thread int self;
static __thread unsigned chance;
static int threads, runs, fresh;
static int is_over, arrived, round_number;

// The program's `printf`: the text is kept until the thread's run is over.
int against_print(const char *format, ...)
{
    size_t left = sizeof printed[self].text - printed[self].length;
    va_list list;
    va_start(list, format);
    int length = vsnprintf(printed[self].text + printed[self].length, left, format, list);
    va_end(list);
    if (length < 0 || (size_t)length >= left) {
        fputs("a thread prints too much\n", stderr);
        _Exit(9);
    }
    printed[self].length += length;
    return length;
}

static unsigned draw(void)
{
    chance = chance * 1664525u + 1013904223u;
    return chance >> 10;
}

static void wait_for(unsigned turns)
{
    for (volatile unsigned i = 0; i < turns; i++)
        ;
}

// A wait by chance, once in eight times, where the program has a mark.
void against_pause(void)
{
    unsigned turns = draw() % 8 ? 0 : draw() % 1500;
    wait_for(turns);
}

// All threads and `main` go on together.
static void meet(void)
{
    int now = __atomic_load_n(&round_number, __ATOMIC_SEQ_CST);
    if (__atomic_add_fetch(&arrived, 1, __ATOMIC_SEQ_CST) == threads + 1) {
        __atomic_store_n(&arrived, 0, __ATOMIC_SEQ_CST);
        __atomic_add_fetch(&round_number, 1, __ATOMIC_SEQ_CST);
        return;
    }
    for (unsigned n = 0; __atomic_load_n(&round_number, __ATOMIC_SEQ_CST) == now; n++)
        if (n % 256 == 255)
            sched_yield();
}

static void *go(void *number)
{
    self = *(int *)number;
    chance = self * 7919u + 17u + fresh * 104729u;
    for (int run = 0; run < (fresh ? 1 : runs); run++) {
        meet();
        if (is_over)
            break;
        wait_for(draw() % 300);
        worker(self);
        meet();
    }
    return 0;
}

static pthread_t thread[MOST_THREADS];

static void start(void)
{
    static int number[MOST_THREADS];
    for (int t = 0; t < threads; t++) {
        number[t] = t;
        if (pthread_create(thread + t, 0, go, number + t)) {
            fputs("a thread does not start\n", stderr);
            _Exit(9);
        }
    }
}

static void join(void)
{
    for (int t = 0; t < threads; t++)
        pthread_join(thread[t], 0);
}

static void report(FILE *to)
{
    for (int t = 0; t < threads; t++) {
        fprintf(to, "== thread %d: ended\n%s", t, printed[t].text);
        if (printed[t].length && printed[t].text[printed[t].length - 1] != '\n')
            putc('\n', to);
    }
    fprintf(to, "== memory\n");
    against_show(to);
}

#ifdef MAY_COME
static void tell(int run)
{
    static const char *const may_come[] = {MAY_COME};
    char *text;
    size_t length;
    FILE *to = open_memstream(&text, &length);
    report(to);
    fclose(to);
    for (size_t at = 0; at < sizeof may_come / sizeof *may_come; at++)
        if (strcmp(text, may_come[at]) == 0) {
            free(text);
            return;
        }
    printf("in run %d comes what may not come\n%s", run + 1, text);
    fflush(stdout);
    _Exit(1);
}
#else
static void tell(int run)
{
    (void)run;
    report(stdout);
    printf("== over\n");
}
#endif

static void read_words(int count, char **words)
{
#ifdef MAY_COME
    threads = THREADS;
    runs = count > 1 ? atoi(words[1]) : RUNS;
    fresh = FRESH;
#else
    threads = atoi(words[1]);
    runs = atoi(words[2]);
    fresh = count > 3;
#endif
}

int main(int count, char **words)
{
    read_words(count, words);
    against_save();
    if (!fresh)
        start();
    time_t began = time(0);
    for (int run = 0; run < runs; run++) {
        if (!fresh && time(0) - began > SECONDS) {
            is_over = 1;
            meet();
            break;
        }
        against_reset();
        for (int t = 0; t < threads; t++) {
            printed[t].length = 0;
            printed[t].text[0] = 0;
        }
        if (fresh) {
            fresh = run + 1;
            start();
        }
        meet();
        meet();
        if (fresh)
            join();
        tell(run);
    }
    if (!fresh)
        join();
    return 0;
}
