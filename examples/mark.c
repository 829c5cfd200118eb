/* Shows each line of a capture from standard input with what stands where in it. Under the line: v the verb, o an option, a its argument, t the target,
 * n a property's name, = its operator, u its value; ^ where the line is refused. Then where the target, or the refusal's place, stood in the capture.
 * */
#include <stdio.h>
#include <string.h>
#include "clp.h"
#include "places.h"

static char row[CLP_LINE_BYTES + 2]; /* the marks under a line */

static void mark(uint64_t position, uint64_t length, char with)
{
    memset(row + position, with, length);
}

/* Marks a line by its records. The verb and the options stand in the line's first terms, the other parts where their records say. */
static void mark_line(const uint8_t *line, size_t line_len, const uint8_t *records, size_t records_len)
{
    size_t at = 0, i = 0; /* where the next term is looked for; the next record */
    while (i < records_len) {
        const uint8_t *r = records + i;
        clp_term t;
        switch (r[0]) {
        case CLP_KIND_VERB:
            t = clp_next_term(line, line_len, at);
            mark(t.value, t.length, 'v');
            at = t.value + t.length;
            i += CLP_VERB_BYTES;
            break;
        case CLP_KIND_OPTION:
            t = clp_next_term(line, line_len, at);
            mark(t.value, t.length, 'o');
            mark(CLP_FIELD(r + 2), CLP_FIELD(r + 4), 'a');
            at = CLP_FIELD(r + 2) + CLP_FIELD(r + 4); /* an absent argument stands after the option */
            i += CLP_OPTION_BYTES;
            break;
        case CLP_KIND_TARGET:
            mark(CLP_FIELD(r + 1), CLP_FIELD(r + 3), 't');
            i += CLP_TARGET_BYTES;
            break;
        case CLP_KIND_PROPERTY:
            mark(CLP_FIELD(r + 1), CLP_FIELD(r + 3), 'n');
            mark(CLP_FIELD(r + 1) + CLP_FIELD(r + 3), r[5], '='); /* an operator's number is also its length */
            mark(CLP_FIELD(r + 6), CLP_FIELD(r + 8), 'u');
            i += CLP_PROPERTY_BYTES;
            break;
        default: /* blank */
            return;
        }
    }
}

static void print_line(const uint8_t *line, size_t line_len)
{
    size_t i;
    for (i = 0; i < line_len; i++)
        putchar(line[i] >= 0x20 && line[i] <= 0x7E ? line[i] : '?');
    putchar('\n');
}

static void print_marks(size_t line_len)
{
    size_t end = line_len + 1;
    while (end > 0 && row[end - 1] == ' ')
        end--;
    printf("%.*s\n", (int)end, row);
}

/* Shows the line that was joined last, or that was too long. */
static void show(const clp_placed *p, clp_joined joined)
{
    static uint8_t records[CLP_READING_BYTES];
    size_t line_len = (size_t)joined.value; /* for a line that is too long this is its place, CLP_LINE_BYTES */
    clp_answer a = clp_read(p->buffer, line_len, records, sizeof records);
    if (joined.number != 0) {
        a.number = joined.number;
        a.value = joined.value;
    }
    memset(row, ' ', sizeof row);
    print_line(p->buffer, line_len);
    if (a.number != 0) {
        mark(a.value, 1, '^');
        print_marks(line_len);
        printf("refusal %u at %u, in the capture at %llu\n", (unsigned)a.number, (unsigned)a.value, (unsigned long long)p->places[a.value]);
    } else {
        clp_part target = clp_target(p->buffer, line_len);
        mark_line(p->buffer, line_len, records, (size_t)a.value);
        print_marks(line_len);
        if (target.length > 0)
            printf("target at %u, in the capture at %llu\n", (unsigned)target.position, (unsigned long long)p->places[target.position]);
    }
}

int main(void)
{
    static clp_placed placed; /* zeros */
    static uint8_t part[4096];
    size_t got;
    while ((got = fread(part, 1, sizeof part, stdin)) > 0) {
        size_t at = 0;
        while (at < got) {
            clp_joined a = clp_join_placed(&placed, part + at, got - at);
            at += a.used;
            if (a.number != 0 || a.value != CLP_NONE)
                show(&placed, a);
        }
    }
    if (clp_end(placed.state).value != 0)
        puts("cut");
    return fflush(stdout) == 0 && !ferror(stdin) ? 0 : 1;
}
