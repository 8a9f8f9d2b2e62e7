// The threads of a model (scripts/spin.py) and what SPIN asks of them, in C. Nothing is proved of it.
//
// A state is the memory between transactions, and of each thread the number of what it still has to do: where it
// continues, its registers that may still be read, and what it has printed. A step is one transaction of a thread and
// the code after it, up to the next transaction or the end. A step that changes nothing, as when a thread tests a lock
// that is held, is no step for SPIN: threads that only wait so are a deadlock.

// How a thread ended: not at all, by itself, or by a trap, whose number is added.
enum { WAITS, ENDED, TRAPPED };
// The most frames of a thread, and the most jumps backwards and calls between two transactions.
enum { MOST_FRAMES = 64, MOST_JUMPS = 1000000 };

// For SPIN a state is so many words. Every byte of it has a value: `filler` is 0.
struct state {
    uint64_t wide[WIDE];
    uint32_t narrow[NARROW], thread[THREADS], filler[(NARROW + THREADS) % 2];
};
_Static_assert(sizeof(struct state) == 8 * WORDS, "the model has states of another size");

struct global { const char *name; char type; uint32_t first, cells; };

// ---- lists that grow, and numbers for texts of bytes

static void *grown(void *items, size_t *room, size_t wanted, size_t size) {
    if (wanted <= *room)
        return items;
    *room = wanted < 64 ? 64 : 2 * wanted;
    items = realloc(items, *room * size);
    if (!items) {
        fputs("out of memory\n", stderr);
        exit(1);
    }
    return items;
}
#define GROW(list, more) \
    ((list).items = grown((list).items, &(list).room, (list).count + (more), sizeof *(list).items))
#define LIST(type) struct { type *items; size_t count, room; }

struct text { uint64_t hash; size_t at; uint32_t length; };
struct table { LIST(struct text) texts; LIST(unsigned char) bytes; LIST(uint32_t) places; };

static uint64_t hash_of(const unsigned char *bytes, size_t length) {
    uint64_t hash = length * UINT64_C(0x9e3779b97f4a7c15) + 1;
    for (; length >= 8; bytes += 8, length -= 8) {
        uint64_t word;
        memcpy(&word, bytes, 8);
        hash = (hash ^ word) * UINT64_C(0xff51afd7ed558ccd);
        hash ^= hash >> 32;
    }
    for (; length; bytes++, length--)
        hash = (hash ^ *bytes) * UINT64_C(0x100000001b3);
    return hash ^ hash >> 29;
}

static void put_in_place(struct table *table, uint32_t number) {
    size_t mask = table->places.count - 1, at = table->texts.items[number].hash & mask;
    while (table->places.items[at])
        at = (at + 1) & mask;
    table->places.items[at] = number + 1;
}

static void double_places(struct table *table) {
    size_t count = table->places.count ? 2 * table->places.count : 64;
    GROW(table->places, count);
    memset(table->places.items, 0, count * sizeof *table->places.items);
    table->places.count = count;
    for (uint32_t it = 0; it < table->texts.count; it++)
        put_in_place(table, it);
}

// The number of a text of bytes in a table: a new one if it is not there.
static uint32_t number_of(struct table *table, const void *bytes, size_t length) {
    uint64_t hash = hash_of(bytes, length);
    if (2 * table->texts.count >= table->places.count)
        double_places(table);
    size_t mask = table->places.count - 1;
    for (size_t at = hash & mask; table->places.items[at]; at = (at + 1) & mask) {
        const struct text *it = &table->texts.items[table->places.items[at] - 1];
        if (it->hash == hash && it->length == length && !memcmp(table->bytes.items + it->at, bytes, length))
            return table->places.items[at] - 1;
    }
    GROW(table->texts, 1);
    GROW(table->bytes, length);
    memcpy(table->bytes.items + table->bytes.count, bytes, length);
    table->texts.items[table->texts.count++] = (struct text){hash, table->bytes.count, (uint32_t)length};
    table->bytes.count += length;
    put_in_place(table, (uint32_t)table->texts.count - 1);
    return (uint32_t)table->texts.count - 1;
}

// ---- the thread that runs

// Where a frame's caller continues, which of the caller's registers gets the value, and the frame's first register.
struct frame { uint32_t back, result, first, registers; };
// What a begin keeps for a cancel: how many cells had been written, and the registers of its frame.
struct begin { size_t written, saved; };
struct written { uint32_t cell; uint64_t word; };

static struct {
    struct state *state;
    uint32_t place;
    int end;
    // whether its next outermost transaction may begin; a property may begin any number of them
    bool may_begin, is_property;
    uint64_t value;
    long jumps;
    size_t frames;
    struct frame frame[MOST_FRAMES];
    LIST(uint64_t) registers;
    LIST(struct begin) begins;
    LIST(uint64_t) saved;
    LIST(struct written) written;
    LIST(char) text;
} t;

// What threads still have to do, by number.
static struct table rests;

static uint64_t get(uint32_t cell) {
    return cell < NARROW ? t.state->narrow[cell] : t.state->wide[cell - NARROW];
}

static void set(uint32_t cell, uint64_t word) {
    if (cell < NARROW)
        t.state->narrow[cell] = (uint32_t)word;
    else
        t.state->wide[cell - NARROW] = word;
}

static void put(uint32_t cell, uint64_t word) {
    GROW(t.written, 1);
    t.written.items[t.written.count++] = (struct written){cell, get(cell)};
    set(cell, word);
}

static void undo_to(size_t written) {
    while (t.written.count > written) {
        struct written *last = &t.written.items[--t.written.count];
        set(last->cell, last->word);
    }
}

static uint64_t *top(void) { return t.registers.items + t.frame[t.frames - 1].first; }

// A begin. An outermost one before which the thread rests is no begin yet: then this is false.
static bool begin(uint32_t place) {
    struct frame *frame = &t.frame[t.frames - 1];
    if (!t.begins.count && !t.is_property) {
        t.place = place;
        if (!t.may_begin)
            return false;
        t.may_begin = false;
    }
    GROW(t.begins, 1);
    GROW(t.saved, frame->registers);
    t.begins.items[t.begins.count++] = (struct begin){t.written.count, t.saved.count};
    memcpy(t.saved.items + t.saved.count, top(), 8 * frame->registers);
    t.saved.count += frame->registers;
    return true;
}

static void commit(void) {
    t.saved.count = t.begins.items[--t.begins.count].saved;
    if (!t.begins.count)
        t.written.count = 0;
}

// A cancel of so many transactions.
static void cancel(size_t levels) {
    t.begins.count -= levels;
    struct begin *back = &t.begins.items[t.begins.count];
    undo_to(back->written);
    memcpy(top(), t.saved.items + back->saved, 8 * t.frame[t.frames - 1].registers);
    t.saved.count = back->saved;
}

static void trap(int number) {
    undo_to(0);
    t.end = TRAPPED + number;
    t.frames = t.begins.count = t.saved.count = 0;
}

// A frame with so many registers, each 0.
static uint64_t *frame(uint32_t registers, uint32_t back, uint32_t result) {
    uint32_t first = t.frames ? t.frame[t.frames - 1].first + t.frame[t.frames - 1].registers : 0;
    t.frame[t.frames++] = (struct frame){back, result, first, registers};
    t.registers.count = first;
    GROW(t.registers, registers);
    memset(t.registers.items + first, 0, 8 * registers);
    return t.registers.items + first;
}

// A return: the place where the caller continues; of the last frame, that of no instruction.
static uint32_t returned(uint64_t value) {
    struct frame left = t.frame[--t.frames];
    if (!t.frames) {
        t.end = ENDED;
        t.value = value;
        return PLACES;
    }
    top()[left.result] = value;
    return left.back;
}

static void print(const char *text, size_t length) {
    GROW(t.text, length);
    memcpy(t.text.items + t.text.count, text, length);
    t.text.count += length;
}

static void print_number(long long number) {
    char digits[24];
    print(digits, (size_t)snprintf(digits, sizeof digits, "%lld", number));
}

// Stops the search: a thread makes too many jumps.
static void stop(void) {
    printf("stopped: a thread makes more than %d jumps and calls between two transactions\n", MOST_JUMPS);
    fflush(stdout);
    _exit(1);
}
#define JUMP() do { if (SELDOM(!--t.jumps)) stop(); } while (0)

// The program: runs the thread from its place up to where it rests or ends. Of a place where a thread rests or to which
// a call returns: forgets the registers that are never read again.
static void run(void);
static void forget(uint32_t place, uint64_t *r);

// ---- threads by number

static LIST(unsigned char) packed;

static void pack(const void *bytes, size_t length) {
    GROW(packed, length);
    memcpy(packed.items + packed.count, bytes, length);
    packed.count += length;
}

// The number of what the thread still has to do.
static uint32_t rest(void) {
    uint32_t head[] = {(uint32_t)t.end, t.end ? 0 : t.place, (uint32_t)t.frames};
    packed.count = 0;
    pack(head, sizeof head);
    for (size_t it = 0; it < t.frames; it++) {
        uint64_t *r = t.registers.items + t.frame[it].first;
        forget(it + 1 < t.frames ? t.frame[it + 1].back : t.place, r);
        if (it + 1 < t.frames)
            r[t.frame[it + 1].result] = 0;
        pack(&t.frame[it], sizeof t.frame[it]);
        pack(r, 8 * t.frame[it].registers);
    }
    pack(t.text.items, t.text.count);
    return number_of(&rests, packed.items, packed.count);
}

static size_t unpack(void *to, size_t at, size_t length, const struct text *from) {
    memcpy(to, rests.bytes.items + from->at + at, length);
    return at + length;
}

// Makes the thread with a number the one that runs.
static void stand(uint32_t number) {
    const struct text *from = &rests.texts.items[number];
    uint32_t head[3];
    size_t at = unpack(head, 0, sizeof head, from);
    t.end = (int)head[0];
    t.place = head[1];
    t.frames = head[2];
    t.registers.count = t.begins.count = t.saved.count = t.written.count = t.text.count = 0;
    for (size_t it = 0; it < t.frames; it++) {
        at = unpack(&t.frame[it], at, sizeof t.frame[it], from);
        t.registers.count = t.frame[it].first;
        GROW(t.registers, t.frame[it].registers);
        at = unpack(t.registers.items + t.frame[it].first, at, 8 * t.frame[it].registers, from);
    }
    print((const char *)rests.bytes.items + from->at + at, from->length - at);
}

static int end_of(uint32_t number) {
    uint32_t end;
    memcpy(&end, rests.bytes.items + rests.texts.items[number].at, sizeof end);
    return (int)end;
}

static bool is_over(const struct state *state) {
    for (int it = 0; it < THREADS; it++)
        if (end_of(state->thread[it]) == WAITS)
            return false;
    return true;
}

// ---- steps

// The last step: from which state to which, of which thread.
static struct { struct state from, to; int thread; bool is_known, is_end; } last;

static void note_step(void);

// Makes `last` the step of a thread in a state.
static void step(const struct state *state, int thread) {
    if (last.is_known && last.thread == thread && !memcmp(&last.from, state, sizeof *state))
        return;
    memcpy(&last.from, state, sizeof *state);
    memcpy(&last.to, state, sizeof *state);
    last.thread = thread;
    stand(state->thread[thread]);
    t.state = &last.to;
    t.may_begin = true;
    t.jumps = MOST_JUMPS;
    if (!t.end)
        run();
    last.to.thread[thread] = rest();
    last.is_end = t.end != WAITS;
    last.is_known = true;
    note_step();
}

// Whether the next step of a process changes something and does not end its thread; whether it ends it.
int threads_continue(const struct state *state, int process) {
    step(state, thread_of[process]);
    return !last.is_end && memcmp(&last.from, &last.to, sizeof last.to);
}

int threads_end(const struct state *state, int process) {
    step(state, thread_of[process]);
    return last.is_end;
}

// ---- the first state

static struct state first;

struct state threads_first(void) { return first; }

// Starts a function, with a word if it has a parameter.
static void start(uint32_t place, uint32_t registers, bool has_word, uint64_t word) {
    t.end = WAITS;
    t.frames = t.begins.count = t.saved.count = t.written.count = t.text.count = 0;
    t.jumps = MOST_JUMPS;
    t.place = place;
    uint64_t *r = frame(registers, 0, 0);
    if (has_word)
        r[0] = word;
}

__attribute__((constructor)) static void make_first(void) {
    memset(&first, 0, sizeof first);
    memcpy(first.narrow, first_narrow, sizeof first_narrow);
    memcpy(first.wide, first_wide, sizeof first_wide);
    for (int it = 0; it < THREADS; it++) {
        t.state = &first;
        t.may_begin = false;
        start(WORKER, WORKER_REGISTERS, true, (uint64_t)it);
        run();
        first.thread[it] = rest();
    }
    for (int it = 0, process = 0; it < THREADS; it++) {
        bool has_process = process < PROCESSES && thread_of[process] == it;
        process += has_process;
        if (has_process != (end_of(first.thread[it]) == WAITS)) {
            fputs("the processes are not the threads that wait at first\n", stderr);
            exit(1);
        }
    }
}

// ---- properties: a function of the program, by its first place

struct property { uint32_t place, registers; };

// Whether a function of the program returns something other than 0 on the memory of a state.
static bool is_nonzero(const struct state *state, const struct property *it) {
    static struct state memory;
    memcpy(&memory, state, sizeof memory);
    t.state = &memory;
    t.is_property = true;
    start(it->place, it->registers, false, 0);
    run();
    t.is_property = false;
    return t.end == ENDED && t.value;
}

// Whether a property holds after the last step, and before it if that is the first one.
int threads_always(const struct property *it) {
    return is_nonzero(&last.to, it) && (memcmp(&last.from, &first, sizeof first) || is_nonzero(&first, it));
}

// Whether it holds if all threads are over.
int threads_finally(const struct property *it) { return !is_over(&last.to) || is_nonzero(&last.to, it); }

// ---- steps that are made

static LIST(int) order;

static void show_order(void) {
    for (size_t it = 0; it < order.count; it++)
        printf("%s%d", it ? "," : "--order ", order.items[it]);
    puts("");
}

// Makes the last step. In a replay of a trail the order of the transactions is printed at the end.
void threads_take(struct state *state, int is_replay) {
    memcpy(state, &last.to, sizeof last.to);
    if (!is_replay)
        return;
    if (!order.count)
        atexit(show_order);
    GROW(order, 1);
    order.items[order.count++] = last.thread;
}
