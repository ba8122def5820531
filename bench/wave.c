/* The waveform in plain C, to measure against: a scenario file on standard input, the waveform of its trace on standard output. It takes the
   signals from the rows as they are, where ours takes them from the printed trace. */
#include "scenario.h"

enum { LONGEST_CHANGE = 93 };

static uint64_t time, written, exc, rc;

static char *binary(char *p, uint64_t v)
{
    for (int k = v ? 63 - __builtin_clzl(v) : 0; k >= 0; k--)
        *p++ = (char)('0' + (v >> k & 1));
    return p;
}

static void print_time(void)
{
    if (out_used > BUFFER - LONGEST_CHANGE)
        flush();
    char *p = out + out_used;
    *p++ = '#';
    p = number(p, time);
    *p++ = '\n';
    out_used = (unsigned long)(p - out);
    written = time;
}

static void print_count(uint64_t v)
{
    print_text("b");
    out_used = (unsigned long)(binary(out + out_used, v) - out);
    print_text(" r\n");
}

static void take_row(const uint64_t *row)
{
    uint64_t flag = row[PRINTED - 2], count = row[PRINTED - 1];
    time++;
    if (flag == exc && count == rc)
        return;
    print_time();
    if (flag != exc)
        print_text(flag ? "1e\n" : "0e\n");
    if (count != rc)
        print_count(count);
    exc = flag;
    rc = count;
}

/* On standard error, when all else is written. */
static void tell_refusal(enum refused why, uint64_t line)
{
    print_text("refused,");
    print_numbers((uint64_t[]){why, line}, 2);
    write(2, out, out_used);
}

int main(void)
{
    uint64_t count;
    print_text("$timescale 1 ns $end\n$scope module lock $end\n$var wire 1 e exc $end\n$var wire 64 r rc $end\n"
               "$upscope $end\n$enddefinitions $end\n#0\n$dumpvars\n0e\nb0 r\n$end\n");
    enum refused refused = take_file(&count);
    if (time != written)
        print_time();
    flush();
    if (refused != NONE)
        tell_refusal(refused, count);
    return 0;
}
