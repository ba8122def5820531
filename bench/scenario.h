/* Scenario files in plain C, to measure against: lines in, an entry run for each, and a buffer for what is printed. A program that includes
   this defines take_row. Input and output go through one buffer each, so that memory does not grow with the file. */
#ifndef SCENARIO_H
#define SCENARIO_H
#include "machine.h"

/* What it needs of the C library, declared here: the kit has the library and no headers. */
extern long read(int, void *, unsigned long);
extern long write(int, const void *, unsigned long);
extern void *memchr(const void *, int, unsigned long);
extern int memcmp(const void *, const void *, unsigned long);
extern void *memmove(void *, const void *, unsigned long);
extern void exit(int);

enum { LONGEST_LINE = 80, LONGEST_SCRIPT = 64, PRINTED = 1 + ROW_WORDS, LONGEST_ROW = PRINTED * 21 + 1, BUFFER = 65536 };
/* The refusals of a file, with their numbers. */
enum refused { NONE, THREAD_COUNT, TOP_IS_ZERO, BAD_PREDICATE, FIRST_VALUE, SCRIPT_TOO_LONG, WRONG_CODE = 7, BROKEN_LINE = 31, WRONG_LINE };

/* ---- output */

static char out[BUFFER];
static unsigned long out_used;

static void flush(void)
{
    for (unsigned long done = 0; done < out_used;) {
        long n = write(1, out + done, out_used - done);
        if (n <= 0)
            exit(1);
        done += (unsigned long)n;
    }
    out_used = 0;
}

static char *number(char *p, uint64_t v)
{
    char digits[20], *d = digits + sizeof digits;
    do
        *--d = (char)('0' + v % 10);
    while (v /= 10);
    while (d < digits + sizeof digits)
        *p++ = *d++;
    return p;
}

/* The numbers, with commas between them, and the break. */
static char *numbers(char *p, const uint64_t *v, int count)
{
    for (int k = 0; k < count; k++) {
        p = number(p, v[k]);
        *p++ = ',';
    }
    p[-1] = '\r';
    *p++ = '\n';
    return p;
}

static void print_text(const char *text)
{
    while (*text)
        out[out_used++] = *text++;
}

static void print_numbers(const uint64_t *v, int count)
{
    if (out_used > BUFFER - LONGEST_ROW)
        flush();
    out_used = (unsigned long)(numbers(out + out_used, v, count) - out);
}

/* ---- lines */

struct text {
    const char *at;
    unsigned long length;
};

static char in[BUFFER];
static char *in_at = in, *in_end = in;

/* Moves what is left to the front and reads on. Returns whether anything came. */
static int refill(void)
{
    unsigned long left = (unsigned long)(in_end - in_at);
    memmove(in, in_at, left);
    in_at = in;
    in_end = in + left;
    long n = read(0, in_end, BUFFER - left);
    if (n < 0)
        exit(1);
    in_end += n;
    return n > 0;
}

/* The next line without its break. A line with an LF of its own is handed out up to and with that LF, and a line that
   is too long as far as it was read: either is broken, and nothing is read after it. Returns 0 at the end of the file. */
static int next_line(struct text *line)
{
    for (;;) {
        unsigned long left = (unsigned long)(in_end - in_at);
        const char *lf = memchr(in_at, '\n', left);
        line->at = in_at;
        if (lf) {
            line->length = (unsigned long)(lf - in_at);
            in_at += line->length + 1;
            if (line->length > 0 && lf[-1] == '\r')
                line->length--;
            else
                line->length++;
            return 1;
        }
        if (left > LONGEST_LINE + 1 || !refill()) {
            line->at = in_at;
            line->length = (unsigned long)(in_end - in_at);
            in_at = in_end;
            return line->length > 0;
        }
    }
}

/* Splits a line at its commas. Returns whether it is whole: not too long, no quote, CR or LF, four fields. */
static int split(struct text line, struct text field[4])
{
    int k = 0;
    const char *start = line.at, *end = line.at + line.length;
    if (line.length > LONGEST_LINE)
        return 0;
    for (const char *p = start; p < end; p++) {
        if (*p == '"' || *p == '\r' || *p == '\n')
            return 0;
        if (*p == ',') {
            if (k == 3)
                return 0;
            field[k++] = (struct text){start, (unsigned long)(p - start)};
            start = p + 1;
        }
    }
    field[k] = (struct text){start, (unsigned long)(end - start)};
    return k == 3;
}

/* Plain decimal below 2^64 without needless zeros. */
static int parse(struct text t, uint64_t *v)
{
    *v = 0;
    if (t.length == 0 || (t.length > 1 && t.at[0] == '0'))
        return 0;
    for (unsigned long k = 0; k < t.length; k++) {
        unsigned digit = (unsigned)t.at[k] - '0';
        if (digit > 9 || __builtin_mul_overflow(*v, 10, v) || __builtin_add_overflow(*v, digit, v))
            return 0;
    }
    return 1;
}

static int is(struct text t, const char *word, unsigned long length)
{
    return t.length == length && memcmp(t.at, word, length) == 0;
}

#define IS(text, word) is(text, word, sizeof word - 1)

/* ---- the scenario */

/* What the program does with the row of an entry: its number and the words of the machine's row. */
static void take_row(const uint64_t *row);

static enum { AT_HEADER, AT_LOCK, AT_PRED, AT_OPS, AT_RUNS } stage;
static uint64_t lens[MOST_THREADS], ops[MOST_THREADS * LONGEST_SCRIPT], vals[MOST_THREADS * LONGEST_SCRIPT], total, last_thread;
static struct scripts scripts = {.lens = lens, .ops = ops, .vals = vals};
static struct lock lock;
static struct rec recs[MOST_THREADS];
static uint64_t busy, rows;

static enum refused take_lock(uint64_t top, uint64_t first, uint64_t threads)
{
    if (stage != AT_LOCK)
        return WRONG_LINE;
    lock.top = top;
    lock.full = 1;
    lock.value = first;
    scripts.count = threads;
    stage = AT_PRED;
    return NONE;
}

static enum refused take_pred(uint64_t kind, uint64_t a, uint64_t b)
{
    if (stage != AT_PRED)
        return WRONG_LINE;
    lock.kind = kind;
    lock.a = a;
    lock.b = b;
    stage = AT_OPS;
    if (scripts.count == 0 || scripts.count > MOST_THREADS)
        return THREAD_COUNT;
    if (lock.top == 0)
        return TOP_IS_ZERO;
    if (kind > PARITY || (kind == PARITY && a > 1))
        return BAD_PREDICATE;
    return permits(&lock, lock.value) ? NONE : FIRST_VALUE;
}

static enum refused take_op(uint64_t thread, uint64_t code, uint64_t value)
{
    if (stage != AT_OPS || thread >= scripts.count || thread < last_thread)
        return WRONG_LINE;
    if (lens[thread] == LONGEST_SCRIPT)
        return SCRIPT_TOO_LONG;
    if (code < ACQUIRE_READ || code > INTO_INNER || (value != 0 && code != RELEASE_WRITE))
        return WRONG_CODE;
    if (lens[thread]++ == 0)
        scripts.starts[thread] = total;
    ops[total] = code;
    vals[total++] = value;
    last_thread = thread;
    return NONE;
}

static enum refused take_run(uint64_t thread, uint64_t times, uint64_t nought)
{
    if (thread > 255 || times < 1 || times > 65535 || nought != 0)
        return BROKEN_LINE;
    if (stage < AT_OPS)
        return WRONG_LINE;
    stage = AT_RUNS;
    for (; times > 0; times--) {
        uint64_t row[PRINTED] = {rows++};
        step(&scripts, &lock, recs, &busy, thread, row + 1);
        take_row(row);
    }
    return NONE;
}

static enum refused take_line(struct text line)
{
    struct text field[4];
    uint64_t a, b, c;
    if (!split(line, field))
        return BROKEN_LINE;
    if (stage == AT_HEADER) {
        stage = AT_LOCK;
        return IS(line, "kind,a,b,c") ? NONE : WRONG_LINE;
    }
    if (!parse(field[1], &a) || !parse(field[2], &b) || !parse(field[3], &c))
        return BROKEN_LINE;
    if (IS(field[0], "run"))
        return take_run(a, b, c);
    if (IS(field[0], "op"))
        return take_op(a, b, c);
    if (IS(field[0], "lock"))
        return take_lock(a, b, c);
    return IS(field[0], "pred") ? take_pred(a, b, c) : WRONG_LINE;
}

/* Reads the whole file. Returns its refusal, with the number of the line that it is at. */
static enum refused take_file(uint64_t *count)
{
    struct text line;
    enum refused refused = NONE;
    *count = 0;
    while (refused == NONE && next_line(&line)) {
        ++*count;
        refused = take_line(line);
    }
    if (refused == NONE && stage < AT_OPS) {
        ++*count;
        refused = WRONG_LINE;
    }
    return refused;
}

#endif
