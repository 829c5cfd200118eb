/* Shows a board's reply from standard input: each item's keyword and the bytes that its value stands for, a group's type in brackets, what stands in a
 * group further to the right. A byte outside 20h to 7Eh is shown as \xNN. Where the reply is refused, standard error says where and why, and the status
 * is 1. */
#include <stdio.h>
#include "clp.h"

static uint8_t reply[CLP_REPLY_BYTES + 1];         /* with one byte more a reply that is too long shows itself */
static uint8_t records[CLP_REPLY_RECORDS_BYTES];
static uint8_t value[CLP_REPLY_BYTES];             /* what one value stands for, which is never longer than the value */

static void print_bytes(const uint8_t *bytes, size_t n)
{
    size_t i;
    for (i = 0; i < n; i++)
        if (bytes[i] >= 0x20 && bytes[i] <= 0x7E)
            putchar(bytes[i]);
        else
            printf("\\x%02X", (unsigned)bytes[i]);
}

static void show(size_t records_len)
{
    size_t i = 0;
    int depth = 0; /* of open groups */
    while (i < records_len) {
        const uint8_t *r = records + i;
        clp_answer a;
        if (r[0] == CLP_KIND_ITEM || r[0] == CLP_KIND_GROUP)
            printf("%*s", 4 * depth, "");
        switch (r[0]) {
        case CLP_KIND_ITEM:
            a = clp_reply_value(reply + CLP_FIELD(r + 5), CLP_FIELD(r + 7), value, sizeof value);
            print_bytes(reply + CLP_FIELD(r + 1), CLP_FIELD(r + 3));
            printf(": ");
            print_bytes(value, (size_t)a.value); /* a value that was read is not refused */
            putchar('\n');
            i += CLP_ITEM_BYTES;
            break;
        case CLP_KIND_GROUP:
            putchar('[');
            print_bytes(reply + CLP_FIELD(r + 1), CLP_FIELD(r + 3));
            puts("]");
            depth++;
            i += CLP_GROUP_BYTES;
            break;
        case CLP_KIND_END_GROUP:
            depth--;
            i += CLP_END_GROUP_BYTES;
            break;
        default: /* the reply's end */
            return;
        }
    }
}

static const char *why(uint64_t number)
{
    switch (number) {
    case CLP_REFUSED_REPLY_LINE:
        return "it is none of keyword=value, begingroup=type, endgroup and endoutput, or something follows a closing quote";
    case CLP_REFUSED_GROUP_END:
        return "endgroup, and no group is open";
    case CLP_REFUSED_DEPTH:
        return "begingroup, and eight groups are open already";
    case CLP_REFUSED_OPEN_GROUP:
        return "endoutput, and a group is open";
    default:
        return "it ends without endoutput, or inside a quote";
    }
}

/* Says where a reply is refused, by the line's number, and why. */
static void tell(clp_answer a, size_t reply_len)
{
    unsigned long line = 1;
    size_t i;
    for (i = 0; i < a.value; i++)
        if (reply[i] == '\n' || (reply[i] == '\r' && !(i + 1 < reply_len && reply[i + 1] == '\n')))
            line++;
    fprintf(stderr, "reply: refused as %u at %lu, ", (unsigned)a.number, (unsigned long)a.value);
    if (reply_len > CLP_REPLY_BYTES)
        fprintf(stderr, "the whole: it has over %d bytes\n", CLP_REPLY_BYTES);
    else if (a.number == CLP_REFUSED_NO_END)
        fprintf(stderr, "the reply's end: %s\n", why(a.number));
    else
        fprintf(stderr, "the start of line %lu: %s\n", line, why(a.number));
}

int main(void)
{
    size_t n = fread(reply, 1, sizeof reply, stdin);
    clp_answer a;
    if (ferror(stdin)) {
        perror("reply: reading failed");
        return 1;
    }
    a = clp_read_reply(reply, n, records, sizeof records);
    if (a.number != 0) {
        tell(a, n);
        return 1;
    }
    show((size_t)a.value);
    return fflush(stdout) == 0 ? 0 : 1;
}
