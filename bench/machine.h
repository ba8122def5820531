/* The lock machine in plain C, to measure against: the table, the refusals 11 to 16 and a row for each entry.
   It tests neither the scripts nor the state; the programs that include it see to that. */
#ifndef MACHINE_H
#define MACHINE_H

typedef unsigned long uint64_t;

/* The rules' numbers by name: operations, access codes, the refusals of an entry. */
enum { ACQUIRE_READ = 1, BORROW, RELEASE_READ, ACQUIRE_WRITE, RELEASE_WRITE, DROP_HANDLE, INTO_INNER };
enum {
    LOADS_RC = 1, EXCHANGES_RC, LOADS_EXC, GIVES_BACK, BORROWS_CELL, RELEASES_RC, EXCHANGES_EXC, WAITS_RC, TAKES_CELL, PUTS_CELL, STORES_EXC,
    DROPS_HANDLE, FAILS_RC, FAILS_EXC
};
enum { NO_THREAD = 11, SCRIPT_FINISHED, LOCK_GONE, DOES_NOT_FIT, OTHERS_BUSY, NOT_PERMITTED };
enum { ANY, EITHER, PARITY };
enum { ROW_WORDS = 6, MOST_THREADS = 16 };

enum place { IDLE, READ_TRY, READ_CHECK, READ_BACK, READING, WRITE_WAIT, WRITE_TAKE, WRITING, WRITE_PUT };

struct rec {
    uint64_t at;
    enum place place;
    uint64_t seen;
    uint64_t taken;
};

struct lock {
    int exc;
    uint64_t rc;
    int full;
    uint64_t value;
    uint64_t kind, a, b;
    uint64_t top;
    uint64_t reads, writes;
    int moved;
    uint64_t mover;
    int finished;
};

/* The operations of all threads one script after the other; starts says where each thread's begins. */
struct scripts {
    uint64_t count;
    const uint64_t *lens, *ops, *vals;
    uint64_t starts[MOST_THREADS];
};

static int permits(const struct lock *l, uint64_t v)
{
    if (l->kind == ANY)
        return 1;
    if (l->kind == EITHER)
        return v == l->a || v == l->b;
    return v % 2 == l->a;
}

static int fits(enum place p, uint64_t op)
{
    switch (p) {
    case IDLE: return op == ACQUIRE_READ || op == ACQUIRE_WRITE || op == INTO_INNER;
    case READ_TRY: case READ_CHECK: case READ_BACK: return op == ACQUIRE_READ;
    case READING: return op == BORROW || op == RELEASE_READ || op == DROP_HANDLE;
    case WRITE_WAIT: case WRITE_TAKE: return op == ACQUIRE_WRITE || op == INTO_INNER;
    case WRITING: return op == RELEASE_WRITE || op == DROP_HANDLE;
    default: return op == RELEASE_WRITE;
    }
}

/* The number of the refusal of an entry, 0 for none. busy counts the records that are not Idle. */
static uint64_t refusal(const struct lock *l, const struct rec *r, uint64_t t, uint64_t len, uint64_t op, uint64_t v, uint64_t busy)
{
    int own = r->place != IDLE;
    if (r->at >= len)
        return SCRIPT_FINISHED;
    if (l->finished || (l->moved && l->mover != t))
        return LOCK_GONE;
    if (!fits(r->place, op))
        return DOES_NOT_FIT;
    if (op == INTO_INNER && !l->moved && busy > (uint64_t)own)
        return OTHERS_BUSY;
    if (r->place == WRITING && op == RELEASE_WRITE && !permits(l, v))
        return NOT_PERMITTED;
    return 0;
}

static void to(struct rec *r, enum place p)
{
    r->place = p;
    r->seen = 0;
    r->taken = 0;
}

static void next(struct rec *r, enum place p)
{
    to(r, p);
    r->at++;
}

/* ---- the table: one access each, whose code is returned */

static uint64_t load_rc(struct lock *l, struct rec *r, uint64_t *got)
{
    *got = l->rc;
    if (l->rc < l->top) {
        to(r, READ_TRY);
        r->seen = l->rc;
    }
    return LOADS_RC;
}

static uint64_t try_rc(struct lock *l, struct rec *r, uint64_t *got)
{
    *got = l->rc;
    if (l->rc != r->seen) {
        to(r, IDLE);
        return FAILS_RC;
    }
    l->rc++;
    to(r, READ_CHECK);
    return EXCHANGES_RC;
}

static uint64_t load_exc(struct lock *l, struct rec *r, uint64_t *got)
{
    *got = (uint64_t)l->exc;
    if (l->exc)
        to(r, READ_BACK);
    else
        next(r, READING);
    return LOADS_EXC;
}

static uint64_t give_back(struct lock *l, struct rec *r, uint64_t *got)
{
    *got = l->rc--;
    to(r, IDLE);
    return GIVES_BACK;
}

static uint64_t use_read_handle(struct lock *l, struct rec *r, uint64_t op, uint64_t *got)
{
    if (op == BORROW) {
        *got = l->value;
        next(r, READING);
        return BORROWS_CELL;
    }
    next(r, IDLE);
    if (op == RELEASE_READ) {
        *got = l->rc--;
        return RELEASES_RC;
    }
    *got = 0;
    l->reads++;
    return DROPS_HANDLE;
}

static uint64_t try_exc(struct lock *l, struct rec *r, uint64_t t, uint64_t op, uint64_t *got)
{
    if (op == INTO_INNER) {
        l->moved = 1;
        l->mover = t;
    }
    *got = (uint64_t)l->exc;
    if (l->exc)
        return FAILS_EXC;
    l->exc = 1;
    to(r, WRITE_WAIT);
    return EXCHANGES_EXC;
}

static uint64_t wait_rc(struct lock *l, struct rec *r, uint64_t *got)
{
    *got = l->rc;
    if (l->rc == 0)
        to(r, WRITE_TAKE);
    return WAITS_RC;
}

static uint64_t take_cell(struct lock *l, struct rec *r, uint64_t op, uint64_t *got)
{
    *got = l->value;
    l->value = 0;
    l->full = 0;
    if (op == ACQUIRE_WRITE) {
        next(r, WRITING);
        r->taken = *got;
    } else {
        next(r, IDLE);
        l->finished = 1;
        l->moved = 0;
    }
    return TAKES_CELL;
}

static uint64_t use_write_handle(struct lock *l, struct rec *r, uint64_t op, uint64_t v, uint64_t *got)
{
    if (op == RELEASE_WRITE) {
        *got = v;
        l->value = v;
        l->full = 1;
        to(r, WRITE_PUT);
        return PUTS_CELL;
    }
    *got = 0;
    l->writes++;
    next(r, IDLE);
    return DROPS_HANDLE;
}

static uint64_t store_exc(struct lock *l, struct rec *r, uint64_t *got)
{
    *got = 0;
    l->exc = 0;
    next(r, IDLE);
    return STORES_EXC;
}

static uint64_t act(struct lock *l, struct rec *r, uint64_t t, uint64_t op, uint64_t v, uint64_t *got)
{
    switch (r->place) {
    case IDLE: return op == ACQUIRE_READ ? load_rc(l, r, got) : try_exc(l, r, t, op, got);
    case READ_TRY: return try_rc(l, r, got);
    case READ_CHECK: return load_exc(l, r, got);
    case READ_BACK: return give_back(l, r, got);
    case READING: return use_read_handle(l, r, op, got);
    case WRITE_WAIT: return wait_rc(l, r, got);
    case WRITE_TAKE: return take_cell(l, r, op, got);
    case WRITING: return use_write_handle(l, r, op, v, got);
    default: return store_exc(l, r, got);
    }
}

/* One entry of thread t with its row. Returns whether it was accepted. */
static int step(const struct scripts *s, struct lock *l, struct rec *recs, uint64_t *busy, uint64_t t, uint64_t *row)
{
    uint64_t answer = NO_THREAD, access = 0, got = 0;
    if (t < s->count) {
        struct rec *r = &recs[t];
        uint64_t at = s->starts[t] + r->at;
        uint64_t op = r->at < s->lens[t] ? s->ops[at] : 0, v = r->at < s->lens[t] ? s->vals[at] : 0;
        answer = refusal(l, r, t, s->lens[t], op, v, *busy);
        if (answer == 0) {
            *busy -= r->place != IDLE;
            access = act(l, r, t, op, v, &got);
            *busy += r->place != IDLE;
        }
    }
    row[0] = t;
    row[1] = access;
    row[2] = answer;
    row[3] = got;
    row[4] = (uint64_t)l->exc;
    row[5] = l->rc;
    return answer == 0;
}

#endif
