/* examples/places.h held against a joiner of its own, written from the rules: on captures of the bytes that joining looks at, in any cuts. */
#include <string.h>
#include "check.h"
#include "clp.h"
#include "places.h"

enum { MOST = 6000 };

static unsigned lines, joined, too_long; /* what the captures had */

static uint32_t seed = 1;

static unsigned below(unsigned bound)
{
    seed = seed * 1664525u + 1013904223u;
    return (seed >> 8) % bound;
}

static uint8_t capture[MOST];
static size_t capture_len;

/* The line that begins at a place of the capture: its bytes with their places, and where the capture goes on after its end. 0 where none ends. */
static uint8_t line[MOST];
static size_t line_places[MOST + 1], line_len;

static int is_end(size_t at)
{
    return at < capture_len && (capture[at] == '\r' || capture[at] == '\n');
}

/* Past an end of line: CR LF is one. */
static size_t past_end(size_t at)
{
    return at + (capture[at] == '\r' && at + 1 < capture_len && capture[at + 1] == '\n' ? 2 : 1);
}

static void note(size_t at)
{
    line[line_len] = capture[at];
    line_places[line_len++] = at;
}

static size_t next_line(size_t at)
{
    line_len = 0;
    while (at < capture_len) {
        if (capture[at] == '`' && is_end(at + 1)) {
            at = past_end(at + 1);
        } else if (capture[at] == '`' && at + 1 < capture_len) {
            note(at);
            note(at + 1);
            at += 2;
        } else if (is_end(at)) {
            line_places[line_len] = at;
            return past_end(at);
        } else {
            note(at);
            at++;
        }
    }
    return 0;
}

/* Mostly x and y, with the bytes that joining looks at in between: in every second place, or seldom, so that lines grow long; backticks too. */
static void make_capture(void)
{
    static const char loaded[] = "``\r\n\r\na \"x";
    unsigned kind = below(3), seldom = kind == 0 ? 2 : 20 + below(200);
    size_t i;
    capture_len = below(MOST);
    for (i = 0; i < capture_len; i++) {
        if (below(seldom) == 0)
            capture[i] = (uint8_t)loaded[below(sizeof loaded - 1)];
        else
            capture[i] = kind == 2 && below(6) == 0 ? '`' : below(2) ? 'x' : 'y';
    }
}

static void try_capture(void)
{
    static clp_placed placed;
    size_t at = 0, next, given = 0;
    memset(&placed, 0, sizeof placed);
    while ((next = next_line(at)) != 0) {
        clp_joined a = {0, CLP_NONE, 0, 0};
        size_t n = line_len < CLP_LINE_BYTES ? line_len : CLP_LINE_BYTES, i;
        while (a.number == 0 && a.value == CLP_NONE) {
            size_t part = 1 + below(300);
            CHECK(given < capture_len);
            if (part > capture_len - given)
                part = capture_len - given;
            a = clp_join_placed(&placed, capture + given, part);
            CHECK(a.used > 0 && a.used <= part && a.state == placed.state);
            given += a.used;
            CHECK(placed.used == given);
        }
        CHECK(line_len > CLP_LINE_BYTES ? a.number == CLP_REFUSED_LONG_LINE && a.value == CLP_LINE_BYTES : a.number == 0 && a.value == line_len);
        CHECK(memcmp(placed.buffer, line, n) == 0);
        for (i = 0; i <= n; i++)
            CHECK(placed.places[i] == line_places[i]);
        lines++;
        joined += line_len > 0 && line_places[line_len] - line_places[0] > line_len;
        too_long += line_len > CLP_LINE_BYTES;
        at = next;
    }
}

int main(void)
{
    int i;
    for (i = 0; i < 2000; i++) {
        make_capture();
        try_capture();
    }
    CHECK(joined > 1000 && too_long > 100);
    printf("places: every byte of %u lines has its place in the capture, %u of them joined, %u too long\n", lines, joined, too_long);
    return 0;
}
