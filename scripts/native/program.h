// The program: its threads at once, and the report of `txc run` (docs/COMMANDS.md), in C11. Nothing is proved of it.
//
//     EXE [--threads T] [--counts] [--order-file FILE]
//
// The exit status is that of `txc run`: 0 where every thread ended, 3 where one trapped, 4 where one stopped. With
// --order-file the order of the transactions that took effect is written, a list for `txc certify --order-file`.
//
// It stands behind the program's functions, the words that its cells begin with (`first`) and its `globals`.

enum { MOST_THREADS = 64 };
static struct thread *threads[MOST_THREADS];
static pthread_barrier_t start;

struct request { int threads; bool counts; const char *order; };

static int fail(const char *why) {
    fprintf(stderr, "%s\n", why);
    return 4;
}

// ---- the threads

static void *run(void *given) {
    struct thread *t = given;
    uint64_t result;
    pthread_barrier_wait(&start);
    f_worker(t, 0, 1, &result, (uint64_t)t->number);
    hand_on(t->number + 1, 0);
    return NULL;
}

static struct thread *made(int number, bool records) {
    struct thread *t = aligned_alloc(128, (sizeof *t + 127) / 128 * 128);
    if (t) {
        memset(t, 0, sizeof *t);
        t->number = number;
        t->patience = MOST_PATIENCE;
        t->records = t->effects_are_whole = records;
    }
    return t;
}

// Runs all threads to their ends.
static int run_all(const struct request *asked) {
    pthread_t ids[MOST_THREADS];
    pthread_attr_t attributes;
    for (int i = 0; i < CELLS; i++)
        atomic_init(&words[i], first[i]);
    for (int i = 0; i < asked->threads; i++)
        if (!(threads[i] = made(i, asked->order)))
            return fail("there is no memory for the threads");
    if (pthread_attr_init(&attributes) || pthread_attr_setstacksize(&attributes, STACK) ||
        pthread_barrier_init(&start, NULL, (unsigned)asked->threads))
        return fail("no thread can be made");
    for (int i = 0; i < asked->threads; i++)
        // (those that are there wait for the others, and end with the process)
        if (pthread_create(&ids[i], &attributes, run, threads[i]))
            return fail("a thread cannot be started");
    for (int i = 0; i < asked->threads; i++)
        pthread_join(ids[i], NULL);
    return 0;
}

// ---- what is printed

static void show_thread(const struct thread *t) {
    printf("== thread %d: ", t->number);
    if (t->end > 0)
        printf("trap %d\n", t->end);
    else
        puts(t->end == ENDED ? "ended" : t->end == STOPPED ? "stop 00" : "budget");
    fwrite(t->text.items, 1, t->text.count, stdout);
    if (t->text.count && t->text.items[t->text.count - 1] != '\n')
        putchar('\n');
}

static void show_word(char type, uint64_t word) {
    if (type == 's')
        printf(" %d", (int)S(word));
    else if (type == 'u')
        printf(" %u", (unsigned)U(word));
    else
        printf(" %lld", (long long)L(word));
}

static void show_memory(void) {
    int held = atomic_load(&holder);
    if (held) {
        printf("== memory: lock held by thread %d\n", held - 1);
        return;
    }
    puts("== memory");
    const _Atomic uint64_t *word = words;
    for (const struct global *it = globals; it->name; it++) {
        printf("%s =", it->name);
        for (uint32_t i = 0; i < it->cells; i++)
            show_word(it->type, atomic_load(word++));
        putchar('\n');
    }
}

static void show_counts(const struct thread *t) {
    fprintf(stderr, "thread %d: transactions %llu, drops %llu, retries %llu\n", t->number,
            (unsigned long long)t->transactions, (unsigned long long)t->drops, (unsigned long long)t->retries);
}

// The thread whose next transaction comes next: by snapshot, of equal snapshots those first that did not take the lock.
// Each thread's lie in that order already. None where all are written.
static int next_of(const size_t *written, int count) {
    int least = -1;
    for (int i = 0; i < count; i++)
        if (written[i] < threads[i]->effects.count &&
            (least < 0 || threads[i]->effects.items[written[i]] < threads[least]->effects.items[written[least]]))
            least = i;
    return least;
}

// The least next item of the other threads: up to it this thread's transactions come one behind the other.
static uint64_t least_of_others(const size_t *written, int count, int thread) {
    uint64_t least = UINT64_MAX;
    for (int i = 0; i < count; i++)
        if (i != thread && written[i] < threads[i]->effects.count && threads[i]->effects.items[written[i]] < least)
            least = threads[i]->effects.items[written[i]];
    return least;
}

// Writes a thread's number, of two digits at most. `fprintf` takes ten times as long.
static void put_thread(FILE *file, int number) {
    if (number >= 10)
        putc_unlocked('0' + number / 10, file);
    putc_unlocked('0' + number % 10, file);
}

static int write_order(const char *path, int count) {
    for (int i = 0; i < count; i++)
        if (!threads[i]->effects_are_whole)
            return fail("there was no memory for the order");
    FILE *file = fopen(path, "w");
    if (!file)
        return fail("the file of the order cannot be opened");
    size_t written[MOST_THREADS] = {0};
    bool is_first = true;
    for (int it; (it = next_of(written, count)) >= 0;) {
        uint64_t least = least_of_others(written, count, it);
        do {
            if (!is_first)
                putc_unlocked(',', file);
            is_first = false;
            put_thread(file, it);
            written[it]++;
        } while (written[it] < threads[it]->effects.count && threads[it]->effects.items[written[it]] < least);
    }
    putc('\n', file);
    bool fails = ferror(file);
    return fclose(file) || fails ? fail("the order is not written whole") : 0;
}

// ---- the command line

static bool read_words(struct request *to, int count, char **words_given) {
    for (int i = 1; i < count; i++) {
        const char *word = words_given[i], *value = i + 1 < count ? words_given[i + 1] : "";
        char *end = NULL;
        if (!strcmp(word, "--counts")) {
            to->counts = true;
            continue;
        }
        if (!strcmp(word, "--order-file"))
            to->order = value;
        else if (!strcmp(word, "--threads"))
            to->threads = (int)strtol(value, &end, 10);
        else
            return false;
        if (!*value || (end && *end))
            return false;
        i++;
    }
    return to->threads >= 1 && to->threads <= MOST_THREADS;
}

int main(int count, char **words_given) {
    struct request asked = {1, false, NULL};
    if (!read_words(&asked, count, words_given)) {
        fprintf(stderr, "%s [--threads T] [--counts] [--order-file FILE], and T is 1 to 64\n", words_given[0]);
        return 2;
    }
    int status = run_all(&asked);
    if (status)
        return status;
    for (int i = 0; i < asked.threads; i++) {
        show_thread(threads[i]);
        status = threads[i]->end < 0 ? 4 : threads[i]->end > 0 && !status ? 3 : status;
    }
    show_memory();
    if (fflush(stdout) || ferror(stdout))
        return fail("the report cannot be printed");
    if (asked.counts) {
        fputs("== counts\n", stderr);
        for (int i = 0; i < asked.threads; i++)
            show_counts(threads[i]);
    }
    return asked.order && write_order(asked.order, asked.threads) ? 4 : status;
}
