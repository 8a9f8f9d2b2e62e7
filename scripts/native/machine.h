// A thread's transactions, by the steps of docs/NOREC.md ("An attempt, step by step"; its rows stand above the
// functions, in its words), in C11. Nothing is proved of it.
//
// Every access to the lock or to a word is sequentially consistent, as in the machine. With WEAK a word is loaded with
// acquire and stored with release, and fences stand where an order between two accesses has to be kept.

#include <pthread.h>
#include <sched.h>
#include <stdatomic.h>
#include <stdbool.h>
#include <stdint.h>
#include <stdio.h>
#include <stdlib.h>
#include <string.h>

#ifdef WEAK
#define LOAD memory_order_acquire
#define STORE memory_order_release
#define LOAD_BEHIND memory_order_relaxed
#define FENCE(order) atomic_thread_fence(memory_order_##order)
#else
#define LOAD memory_order_seq_cst
#define STORE memory_order_seq_cst
#define LOAD_BEHIND memory_order_seq_cst
#define FENCE(order) ((void)0)
#endif

#if defined __x86_64__ || defined __i386__
#define PAUSE() __builtin_ia32_pause()
#elif defined __aarch64__
#define PAUSE() __asm__ volatile("yield")
#else
#define PAUSE() ((void)0)
#endif

#define SELDOM(condition) __builtin_expect(!!(condition), 0)
#define INLINE static inline __attribute__((always_inline))
#define APART static __attribute__((noinline, unused))

// What an operation came to: it is done; the attempt is dropped; the thread goes no further.
enum { DONE, DROPPED, OVER };
// How a thread ended: by itself; by a trap, whose number it is, from 1 on; for a growth that was refused; by waiting
// for a lock that is never released.
enum { ENDED = 0, STOPPED = -1, WAITING = -2 };

// A global, its type ('s' of an `int`, 'u' of an `unsigned`, 'l' of a `long long`) and how many cells it has.
struct global { const char *name; char type; uint32_t cells; };

// The sequence lock and the words, in cache lines of their own.
static _Alignas(128) _Atomic uint64_t lock;
static _Alignas(128) _Atomic uint64_t words[CELLS + 1];
// The thread that has the right of way, plus 1, or 0: the others wait for a while before they take the lock. A thread
// claims it whose transaction was validated or aborted often.
static _Alignas(128) _Atomic int right_of_way;
// The thread that keeps the lock for good, plus 1: a growth was refused while it had it.
static _Atomic int holder;

// As in crates/workers/src/right_of_way.rt: after how many tries of a transaction its thread claims the right of way, at
// most and at least, and as how many an abort counts; how often a thread looks whether another one still has it; and at
// each how many of its looks a thread that waits gives its processor away.
enum { MOST_PATIENCE = 64, LEAST_PATIENCE = 4, ABORT = 16, MOST_LOOKS = 20000, LOOKS = 128 };

// A word that was read, or that is to be stored.
struct entry { uint32_t cell; uint64_t word; };
// Where in the write log a cell's pair is, in the attempt of that number.
struct place { uint32_t attempt, at; };
// What stood in the write log before a nested transaction wrote there.
struct undo { uint32_t at; uint64_t word; };
// A list that grows.
#define LIST(type) struct { type *items; size_t count, room; }

struct thread {
    uint64_t snapshot;
    uint32_t attempt, written;
    // whether the lock is kept to the transaction's end, an outermost transaction is open, and effects are recorded
    bool keeps, is_inside, records;
    // the tries of the transaction, after how many it claims the right of way, whether it has claimed it, and whether its
    // last attempt was aborted
    uint32_t tries, patience;
    bool has_claimed, is_aborted;
    int end, number;
    uint64_t transactions, drops, retries;
    LIST(struct entry) reads;
    LIST(struct undo) journal;
    LIST(char) text;
    // of each transaction that took effect its snapshot, and 1 more where it took the lock
    LIST(uint64_t) effects;
    bool effects_are_whole;
    struct place places[CELLS + 1];
    struct entry writes[CELLS + 1];
};

// Makes room for so many more items, where memory is there.
APART bool grown(void **items, size_t *room, size_t count, size_t more, size_t size) {
    size_t wanted = 2 * *room > count + more ? 2 * *room : count + more + 64;
    void *made = realloc(*items, wanted * size);
    if (made) {
        *items = made;
        *room = wanted;
    }
    return made;
}
#define HAS_ROOM(list, more) \
    (!SELDOM((list).room - (list).count < (more)) || \
     grown((void **)&(list).items, &(list).room, (list).count, (more), sizeof *(list).items))

// A growth is refused: the thread stands still in its attempt, and keeps the lock where it has it.
APART int stop(struct thread *t) {
    t->end = STOPPED;
    if (t->keeps)
        atomic_store(&holder, t->number + 1);
    return OVER;
}

// A transaction takes effect at its snapshot; where it took the lock, just behind those that did not.
INLINE void take_effect(struct thread *t, bool took_lock) {
    t->is_inside = false;
    t->transactions++;
    if (SELDOM(t->records)) {
        if (HAS_ROOM(t->effects, 1))
            t->effects.items[t->effects.count++] = t->snapshot + took_lock;
        else
            t->effects_are_whole = t->records = false;
    }
}

// Waits for a moment, by the number of the look at what another thread has taken.
INLINE void wait_a_moment(uint64_t look) {
    if (SELDOM(look % LOOKS == 0))
        sched_yield();
    else
        PAUSE();
}

// Hands the right of way on if it is still this thread's: whether it was.
APART bool hand_on(int from, int to) {
    return atomic_load(&right_of_way) == from && atomic_compare_exchange_strong(&right_of_way, &from, to);
}

// Waits while another thread has the right of way. A thread that has waited long takes it away.
APART void wait_for(const struct thread *t, int owner) {
    if (owner == t->number + 1)
        return;
    for (uint64_t look = 1; look <= MOST_LOOKS; look++) {
        if (atomic_load(&right_of_way) != owner)
            return;
        wait_a_moment(look);
    }
    hand_on(owner, 0);
}

// Counts tries of the transaction. After many of them its thread claims the right of way; one that has lost it claims it
// again only after the most tries that there are.
INLINE void count_tries(struct thread *t, uint32_t more) {
    t->tries += more;
    if (SELDOM(t->tries >= (t->has_claimed ? MOST_PATIENCE : t->patience)) && hand_on(0, t->number + 1)) {
        t->has_claimed = true;
        t->tries = 1;
    }
}

// An attempt begins after tries: of the same transaction, if that was aborted. Else a transaction begins, and its thread
// gives up the right of way.
APART void begin_after_tries(struct thread *t) {
    if (t->is_aborted) {
        t->is_aborted = false;
        return;
    }
    if (t->has_claimed) {
        hand_on(t->number + 1, 0);
        t->patience = t->patience / 2 > LEAST_PATIENCE ? t->patience / 2 : LEAST_PATIENCE;
    } else {
        t->patience = t->patience * 2 < MOST_PATIENCE ? t->patience * 2 : MOST_PATIENCE;
    }
    t->tries = 0;
    t->has_claimed = false;
}

// load lock; again while it is odd. One that is kept for good is waited for no longer.
INLINE int load_even(struct thread *t, uint64_t *even) {
    while (SELDOM((*even = atomic_load_explicit(&lock, LOAD)) & 1)) {
        wait_a_moment(++t->retries);
        if (SELDOM(atomic_load_explicit(&holder, memory_order_relaxed))) {
            t->end = WAITING;
            return OVER;
        }
    }
    return DONE;
}

// begin, outermost: load lock, again while it is odd; the even value is the snapshot.
INLINE int begin(struct thread *t) {
    t->reads.count = t->journal.count = t->written = 0;
    if (SELDOM(++t->attempt == 0)) {
        memset(t->places, 0, sizeof t->places);
        t->attempt = 1;
    }
    t->is_inside = true;
    if (SELDOM(t->tries))
        begin_after_tries(t);
    return load_even(t, &t->snapshot);
}

// abort: the thread stands at its outermost begin again. It pauses before it begins anew.
APART void dropped(struct thread *t) {
    t->drops++;
    t->is_aborted = true;
    count_tries(t, ABORT);
    for (int i = 0; i < 32 && !t->has_claimed; i++)
        PAUSE();
}

// validation: load lock until it is even: the time. For each entry of the read log load word; a word that differs drops
// the attempt. Then load lock: where it still is the time, that is the new snapshot; else validation begins anew.
APART int validate(struct thread *t) {
    for (;;) {
        uint64_t time;
        if (load_even(t, &time))
            return OVER;
        count_tries(t, 1);
        for (size_t i = 0; i < t->reads.count; i++)
            if (atomic_load_explicit(&words[t->reads.items[i].cell], LOAD) != t->reads.items[i].word)
                return DROPPED;
        FENCE(acquire);
        if (atomic_load_explicit(&lock, LOAD_BEHIND) == time) {
            t->snapshot = time;
            return DONE;
        }
    }
}

// A read whose lock was not the snapshot: validation runs, and the read begins anew.
APART int read_anew(struct thread *t, uint32_t cell, uint64_t *word) {
    do {
        int came = validate(t);
        if (came)
            return came;
        *word = atomic_load_explicit(&words[cell], LOAD);
        FENCE(acquire);
    } while (atomic_load_explicit(&lock, LOAD_BEHIND) != t->snapshot);
    return DONE;
}

// read of a cell in the write log: the log answers. Else load word, then load lock: where it still is the snapshot, the
// pair is appended to the read log. With the lock kept, one load word, unlogged and unchecked.
INLINE int read(struct thread *t, uint32_t cell, uint64_t *to) {
    if (t->written && t->places[cell].attempt == t->attempt) {
        *to = t->writes[t->places[cell].at].word;
        return DONE;
    }
    uint64_t word = atomic_load_explicit(&words[cell], LOAD);
    if (SELDOM(t->keeps)) {
        *to = word;
        return DONE;
    }
    FENCE(acquire);
    if (SELDOM(atomic_load_explicit(&lock, LOAD_BEHIND) != t->snapshot)) {
        int came = read_anew(t, cell, &word);
        if (came)
            return came;
    }
    if (SELDOM(!HAS_ROOM(t->reads, 1)))
        return stop(t);
    t->reads.items[t->reads.count++] = (struct entry){cell, word};
    *to = word;
    return DONE;
}

// write: the write log alone changes. In a nested transaction what stood there is kept for a cancel.
INLINE int write(struct thread *t, bool is_nested, uint32_t cell, uint64_t word) {
    struct place *place = &t->places[cell];
    if (place->attempt == t->attempt) {
        if (is_nested) {
            if (SELDOM(!HAS_ROOM(t->journal, 1)))
                return stop(t);
            t->journal.items[t->journal.count++] = (struct undo){place->at, t->writes[place->at].word};
        }
        t->writes[place->at].word = word;
    } else {
        *place = (struct place){t->attempt, t->written};
        t->writes[t->written++] = (struct entry){cell, word};
    }
    return DONE;
}

// cancel: the write log is the checkpoint's again (so many pairs, so much of the journal); the read log stays.
APART void back_to(struct thread *t, uint32_t written, size_t kept) {
    while (t->journal.count > kept) {
        struct undo *last = &t->journal.items[--t->journal.count];
        t->writes[last->at].word = last->word;
    }
    while (t->written > written)
        t->places[t->writes[--t->written].cell].attempt = t->attempt - 1;
}

// swap lock from the snapshot to the next, odd value; after a lost swap validation, and the swap again.
INLINE int take_lock(struct thread *t) {
    for (;;) {
        uint64_t from = t->snapshot;
        int owner = atomic_load(&right_of_way);
        if (SELDOM(owner))
            wait_for(t, owner);
        if (atomic_compare_exchange_strong(&lock, &from, t->snapshot + 1))
            return DONE;
        int came = validate(t);
        if (came)
            return came;
    }
}

// store word for each pair of the write log in order, then store lock: the snapshot plus 2.
INLINE void store_and_release(struct thread *t) {
    FENCE(release);
    for (uint32_t i = 0; i < t->written; i++)
        atomic_store_explicit(&words[t->writes[i].cell], t->writes[i].word, STORE);
    atomic_store_explicit(&lock, t->snapshot + 2, STORE);
    t->keeps = false;
}

// commit, outermost: nothing written and the lock not kept, one local step. Else the swap, unless the lock is kept, the
// stores and the release.
INLINE int commit(struct thread *t) {
    bool stores = t->written || t->keeps;
    if (stores) {
        int came = t->keeps ? DONE : take_lock(t);
        if (came)
            return came;
        store_and_release(t);
    }
    take_effect(t, stores);
    return DONE;
}

// irrevocable: outside transactions, or with the lock kept, one local step. Else the swap; the lock is then kept.
APART int keep_lock(struct thread *t) {
    if (!t->is_inside || t->keeps)
        return DONE;
    int came = take_lock(t);
    t->keeps = came == DONE;
    return came;
}

// trap: one local step; with the lock kept a store lock (snapshot plus 2) follows, without write-back.
APART int trap(struct thread *t, int number) {
    t->end = number;
    if (t->is_inside)
        take_effect(t, t->keeps);
    if (t->keeps) {
        t->written = 0;
        store_and_release(t);
    }
    return OVER;
}

// print: one piece of text.
APART int print(struct thread *t, const char *text, size_t length) {
    if (!HAS_ROOM(t->text, length))
        return stop(t);
    memcpy(t->text.items + t->text.count, text, length);
    t->text.count += length;
    return DONE;
}

APART int print_number(struct thread *t, long long number) {
    char digits[24];
    return print(t, digits, (size_t)snprintf(digits, sizeof digits, "%lld", number));
}
