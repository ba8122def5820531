/* The runner in plain C, to measure against: a scenario file on standard input, its trace on standard output, both CSV. */
#include "scenario.h"

static void take_row(const uint64_t *row)
{
    print_numbers(row, PRINTED);
}

static void print_refusal(enum refused why, uint64_t line)
{
    flush();
    print_text("refused,");
    print_numbers((uint64_t[]){why, line}, 2);
}

int main(void)
{
    uint64_t count;
    print_text("n,thread,access,answer,got,exc,rc\r\n");
    enum refused refused = take_file(&count);
    if (refused != NONE)
        print_refusal(refused, count);
    flush();
    return 0;
}
