/* A libFuzzer harness on the C face: every function on every input, held against what include/clp.h promises. The input's first bytes choose a state,
 * sizes and cuts; the rest is taken as a capture, a line, a tree with a text, records, a reply, records of a reply with their text, and a raw value. A
 * broken promise aborts.
 * What is lent is followed and preceded by bytes that must stay as they are; where the library is instrumented too, reading them is caught as well. */
#include <sanitizer/asan_interface.h>
#include <stdint.h>
#include <stdlib.h>
#include <string.h>
#include "clp.h"
#include "places.h"

static void check(int holds)
{
    if (!holds)
        abort();
}

/* ---- lent memory */

enum { EDGE = 32, MOST = 16384, MOST_LENT = CLP_REPLY_BYTES };

/* Bytes between two edges, with a copy of what they held at the start. */
typedef struct {
    uint8_t bytes[EDGE + MOST_LENT + EDGE], before[EDGE + MOST_LENT + EDGE];
    size_t length;
} lent;

/* Opens the edges again. */
static void take_back(lent *l)
{
    ASAN_UNPOISON_MEMORY_REGION(l->bytes, EDGE + l->length + EDGE);
}

/* Guards the edges, and gives the pointer to lend: null where the length is 0. */
static uint8_t *guard(lent *l)
{
    ASAN_POISON_MEMORY_REGION(l->bytes, EDGE);
    ASAN_POISON_MEMORY_REGION(l->bytes + EDGE + l->length, EDGE);
    return l->length == 0 ? 0 : l->bytes + EDGE;
}

/* Lends a room with a fill that no answer leaves by chance. */
static uint8_t *lend_room(lent *l, size_t length, uint8_t fill)
{
    check(length <= MOST_LENT);
    take_back(l);
    l->length = length;
    memset(l->bytes, 0x80 + fill, EDGE + length + EDGE);
    memset(l->before, 0x80 + fill, EDGE + length + EDGE);
    return guard(l);
}

/* Lends a copy of some bytes, to be read. */
static const uint8_t *lend_copy(lent *l, const uint8_t *bytes, size_t length)
{
    check(length <= MOST_LENT);
    take_back(l);
    l->length = length;
    if (length > 0)
        memcpy(l->bytes + EDGE, bytes, length);
    return guard(l);
}

/* Whether what was lent to be read is as it was. */
static int is_copy(const lent *l, const uint8_t *bytes)
{
    return l->length == 0 || memcmp(l->bytes + EDGE, bytes, l->length) == 0;
}

/* Takes a room back: nothing has changed but its first bytes, which are given. */
static const uint8_t *wrote(lent *l, size_t length)
{
    check(length <= l->length);
    take_back(l);
    check(memcmp(l->bytes, l->before, EDGE) == 0);
    check(memcmp(l->bytes + EDGE + length, l->before + EDGE + length, l->length - length + EDGE) == 0);
    return l->bytes + EDGE;
}

/* The same by an answer: a refusal changes nothing. */
static const uint8_t *written(lent *l, clp_answer a)
{
    return wrote(l, a.number == 0 ? (size_t)a.value : 0);
}

static lent text, other, room, buffer, kept;

static size_t smaller(size_t a, size_t b)
{
    return a < b ? a : b;
}

static int same(clp_answer a, clp_answer b)
{
    return a.number == b.number && a.value == b.value;
}

static int is(clp_answer a, uint64_t number, uint64_t value)
{
    return a.number == number && a.value == value;
}

/* ---- records */

/* The length of the record that so many bytes begin with, 0 where there is none. */
static size_t record_len(const uint8_t *records, size_t left)
{
    static const uint8_t lengths[] = {0, CLP_VERB_BYTES, CLP_OPTION_BYTES, CLP_TARGET_BYTES, CLP_PROPERTY_BYTES,
                                      CLP_REFUSAL_BYTES, CLP_BLANK_BYTES, CLP_CUT_BYTES};
    size_t length = records[0] < sizeof lengths ? lengths[records[0]] : 0;
    return length <= left ? length : 0;
}

static void on_records(const uint8_t *records, size_t n, size_t room_len)
{
    size_t at = 0, length, lines = 0, i;
    clp_answer full, a;
    const uint8_t *out;
    n = smaller(n, MOST / 6);
    while (at < n && (length = record_len(records + at, n - at)) > 0) {
        at += length;
        lines++;
    }
    full = clp_records_text(lend_copy(&text, records, n), n, lend_room(&room, MOST, 1), MOST);
    out = written(&room, full);
    if (at < n) {
        check(is(full, CLP_REFUSED_TREE, at));
    } else {
        check(full.number == 0 && full.value <= 6 * n);
        for (i = 0; i < full.value; i++)
            lines -= out[i] == '\n';
        check(lines == 0);
    }
    a = clp_records_text(lend_copy(&text, records, n), n, lend_room(&room, room_len, 2), room_len);
    written(&room, a);
    check(full.number == 0 && full.value > room_len ? is(a, CLP_REFUSED_ROOM, 0) : same(a, full));
}

/* Whether a verb can have an option. */
static int has(unsigned verb, unsigned option)
{
    switch (option) {
    case CLP_OPTION_ALL:
    case CLP_OPTION_DISPLAY:
    case CLP_OPTION_LEVEL:
        return verb == CLP_VERB_SHOW;
    case CLP_OPTION_DESTINATION:
        return verb == CLP_VERB_DUMP;
    case CLP_OPTION_SOURCE:
        return verb == CLP_VERB_LOAD;
    case CLP_OPTION_FORCE:
        return verb != CLP_VERB_CD && verb != CLP_VERB_CREATE && verb != CLP_VERB_EXIT && verb != CLP_VERB_HELP && verb != CLP_VERB_VERSION;
    case CLP_OPTION_WAIT:
        return verb != CLP_VERB_EXIT;
    default:
        return option <= CLP_OPTION_WAIT;
    }
}

/* The records of a line that is not refused: parts in order inside the line, the verb and the options in its first terms, options of that verb alone. */
static void on_reading(const uint8_t *line, size_t n, const uint8_t *records, size_t records_len)
{
    size_t at = 0, i = 0, length;
    clp_part target = clp_target(line, n);
    int targets = 0;
    for (; i < records_len; i += length) {
        const uint8_t *r = records + i;
        clp_term t = clp_next_term(line, n, at);
        length = record_len(r, records_len - i);
        check(length > 0 && r[0] != CLP_KIND_REFUSAL && r[0] != CLP_KIND_CUT && t.number == 0);
        if (r[0] == CLP_KIND_BLANK) {
            check(records_len == CLP_BLANK_BYTES && t.value == CLP_NONE);
            continue;
        }
        check(t.value != CLP_NONE && t.value >= at);
        at = t.value + t.length;
        switch (r[0]) {
        case CLP_KIND_VERB:
            check(i == 0 && r[1] >= CLP_VERB_CD && r[1] <= CLP_VERB_VERSION);
            break;
        case CLP_KIND_OPTION:
            check(line[t.value] == '-' && r[1] >= CLP_OPTION_ALL && has(records[1], r[1]) && CLP_FIELD(r + 2) >= at);
            at = CLP_FIELD(r + 2) + CLP_FIELD(r + 4);
            break;
        case CLP_KIND_TARGET:
            check(CLP_FIELD(r + 1) == t.value && CLP_FIELD(r + 3) == t.length && target.position == t.value && target.length == t.length);
            targets++;
            break;
        default:
            check(CLP_FIELD(r + 1) == t.value && r[5] <= CLP_OPERATOR_EQUALS);
            check(CLP_FIELD(r + 6) == CLP_FIELD(r + 1) + CLP_FIELD(r + 3) + r[5] && CLP_FIELD(r + 6) + CLP_FIELD(r + 8) == at);
        }
        check(at <= n);
    }
    check(targets == (target.length > 0));
}

/* ---- places */

/* The bytes of the sign at a place of a term: two for a backtick with the byte that it escapes. A quote that is not escaped opens or closes. */
static size_t sign(const uint8_t *term, size_t n, size_t at, int *quoted)
{
    int escapes = term[at] == '`' && at + 1 < n && strchr(*quoted ? "`\"" : " `\",=-/\\.()*", term[at + 1]) != 0;
    *quoted ^= term[at] == '"';
    return escapes ? 2 : 1;
}

/* Whether a term, cut after so many bytes, has a bare `=`. */
static int has_equals(const uint8_t *term, size_t n)
{
    size_t at = 0;
    int quoted = 0;
    while (at < n && (term[at] != '=' || quoted))
        at += sign(term, n, at, &quoted);
    return at < n;
}

/* Whether no sign of a term stands on both sides of a place. */
static int parts(const uint8_t *term, size_t n, size_t place)
{
    size_t at = 0;
    int quoted = 0;
    while (at < place)
        at += sign(term, n, at, &quoted);
    return at == place;
}

/* What can be missing at the end of a good term that is cut: whichever form it has, one of these is. */
static const char *const ENDINGS[] = {"", "1", "a", "l", "ll", ".", "/", "\"", ")", "a)", "\")", "a\"", "a\")", "=a"};
enum { ENDING_BYTES = 3, MOST_ENDINGS = sizeof ENDINGS / sizeof *ENDINGS };

/* Some bytes with the ending of a number after them: where they now end. */
static size_t end_with(uint8_t *to, const uint8_t *bytes, size_t n, size_t number)
{
    size_t length = strlen(ENDINGS[number]);
    if (n > 0)
        memcpy(to, bytes, n);
    memcpy(to + n, ENDINGS[number], length);
    return n + length;
}

/* A line refused as 10, 12 or 13: the place lies in a term after the verb or at its end, for 10 in one behind an option, and that term does not start with
 * `-`. Up to the place it is the beginning of a good line; what follows the byte there has no part in it; only a property may be read as a target where it
 * is cut. */
static void on_place(const uint8_t *line, size_t n, clp_answer refusal)
{
    static uint8_t good[CLP_LINE_BYTES + ENDING_BYTES];
    size_t place = (size_t)refusal.value, start, end = 0, before = 0, terms = 0, i = 0;
    clp_answer cut;
    for (;; terms++) {
        clp_term t = clp_next_term(line, n, end);
        check(t.number == 0 && t.value != CLP_NONE && t.value <= place);
        start = (size_t)t.value;
        end = start + (size_t)t.length;
        if (place <= end)
            break;
        before = start;
    }
    check(terms > 0 && line[start] != '-' && parts(line + start, end - start, place - start));
    check(refusal.number != CLP_REFUSED_ARGUMENT || line[before] == '-');
    /* in a room of no bytes a good line is 19 */
    while (place + ENDING_BYTES <= CLP_LINE_BYTES && clp_read(good, end_with(good, line, place, i), 0, 0).number != CLP_REFUSED_ROOM)
        check(++i < MOST_ENDINGS);
    if (place < end) {
        int is_property = refusal.number == CLP_REFUSED_PROPERTY && !has_equals(line + start, place + 1 - start);
        cut = clp_read(line, place + 1, 0, 0);
        check(same(cut, refusal) || cut.number == CLP_REFUSED_GRAVE || cut.number == CLP_REFUSED_QUOTE ||
              (is_property && (cut.number == CLP_REFUSED_TARGET || cut.number == CLP_REFUSED_ROOM)));
    }
}

static int is_form(clp_answer a)
{
    return a.number == CLP_REFUSED_ARGUMENT || a.number == CLP_REFUSED_TARGET || a.number == CLP_REFUSED_PROPERTY;
}

/* ---- a line */

static void on_line(const uint8_t *bytes, size_t n, size_t room_len, size_t place)
{
    static uint8_t records[CLP_READING_BYTES], writing[CLP_CANONICAL_BYTES];
    const uint8_t *line = lend_copy(&text, bytes, n);
    clp_answer full = clp_read(line, n, lend_room(&room, CLP_READING_BYTES, 3), CLP_READING_BYTES), a, w;
    clp_term t;
    clp_part target;
    memcpy(records, written(&room, full), sizeof records);
    check(full.number <= CLP_REFUSED_PROPERTIES || (full.number == CLP_REFUSED_NOT_FOR_VERB && full.value < n && line[full.value] == '-'));
    check(full.value <= (full.number == 0 ? CLP_READING_BYTES : n));
    if (is_form(full))
        on_place(line, n, full);
    a = clp_read(line, n, lend_room(&room, room_len, 4), room_len);
    written(&room, a);
    check(full.number == 0 && full.value > room_len ? is(a, CLP_REFUSED_ROOM, 0) : same(a, full));
    target = clp_target(line, n);
    if (full.number == 0)
        on_reading(line, n, records, (size_t)full.value);
    else
        check(target.position == 0 && target.length == 0);

    /* from any place: a term at or after it, none, or the line's refusal by rows 1 to 5 */
    t = clp_next_term(line, n, place);
    if (t.number == 0 && t.value != CLP_NONE)
        check(t.value >= place && t.length > 0 && t.value + t.length <= n);
    else
        check(t.length == 0);
    check((full.number >= 1 && full.number <= 5) == (t.number != 0) && (t.number == 0 || (t.number == full.number && t.value == full.value)));

    /* a writing of at most 1,024 bytes reads back as the same command, so it is its own writing */
    w = clp_canonical(line, n, lend_room(&room, CLP_CANONICAL_BYTES, 5), CLP_CANONICAL_BYTES);
    memcpy(writing, written(&room, w), sizeof writing);
    check(full.number == 0 ? w.number == 0 : same(w, full));
    a = clp_canonical(line, n, lend_room(&room, room_len, 6), room_len);
    written(&room, a);
    check(w.number == 0 && w.value > room_len ? is(a, CLP_REFUSED_ROOM, 0) : same(a, w));
    if (w.number == 0) {
        size_t length = (size_t)w.value;
        a = clp_canonical(lend_copy(&other, writing, length), length, lend_room(&room, CLP_CANONICAL_BYTES, 7), CLP_CANONICAL_BYTES);
        if (length <= CLP_LINE_BYTES)
            check(same(a, w) && memcmp(written(&room, a), writing, length) == 0);
        else
            check(is(a, CLP_REFUSED_LONG_LINE, CLP_LINE_BYTES) && written(&room, a));
    }

    /* the line's own records, whole and with a byte that is damaged */
    if (full.number == 0) {
        on_records(records, (size_t)full.value, room_len);
        records[place % full.value] ^= (uint8_t)(1 + place % 9);
        on_records(records, (size_t)full.value - place % 2, room_len);
    }
}

/* ---- a capture: the same lines whole and in cuts, by joining, with places, and by listing */

static void on_capture(const uint8_t *capture, size_t n, size_t cut)
{
    static clp_placed placed;
    static uint8_t records[CLP_READING_BYTES];
    uint64_t state = 0, list_state = 0;
    size_t at = 0, done = 0;
    uint8_t *line = lend_room(&buffer, CLP_LINE_BYTES, 8), *list_line = lend_room(&kept, CLP_LINE_BYTES, 9);
    clp_answer end, a;
    memset(&placed, 0, sizeof placed);
    while (at < n) {
        clp_joined x = clp_join(state, line, CLP_LINE_BYTES, capture + at, n - at), y = {0, CLP_NONE, 0, 0}, z;
        check(x.used > 0 && at + x.used <= n);
        check(x.number == 0 || (x.number == CLP_REFUSED_LONG_LINE && x.value == CLP_LINE_BYTES));
        at += x.used;
        state = x.state;
        while (done < at) {
            size_t length = smaller(at - done, cut + 1);
            const uint8_t *part = lend_copy(&text, capture + done, length);
            y = clp_list(list_state, list_line, CLP_LINE_BYTES, part, length, lend_room(&room, CLP_READING_BYTES, 10), CLP_READING_BYTES);
            check(y.number == 0 && y.used > 0 && y.used <= length);
            z = clp_join_placed(&placed, part, length);
            check(z.used == y.used && z.state == y.state);
            done += y.used;
            list_state = y.state;
            memcpy(records, wrote(&room, y.value == CLP_NONE ? 0 : (size_t)y.value), sizeof records);
            check(done == at || y.value == CLP_NONE);
        }
        check(state == list_state && memcmp(line, list_line, x.number == 0 && x.value == CLP_NONE ? state & CLP_STATE_HELD : x.value) == 0);
        if (x.number == 0 && x.value == CLP_NONE) {
            check(y.value == CLP_NONE && at == n);
            continue;
        }
        /* what was listed is the line's reading, or its refusal */
        a = clp_read(line, (size_t)x.value, lend_room(&room, CLP_READING_BYTES, 11), CLP_READING_BYTES);
        if (x.number != 0)
            a.number = x.number, a.value = x.value;
        if (a.number == 0) {
            check(y.value == a.value && memcmp(records, wrote(&room, (size_t)a.value), (size_t)a.value) == 0);
            on_reading(line, (size_t)x.value, records, (size_t)a.value);
        } else
            check(y.value == CLP_REFUSAL_BYTES && records[0] == CLP_KIND_REFUSAL && records[1] == a.number && CLP_FIELD(records + 2) == a.value);
        if (is_form(a))
            on_place(line, (size_t)x.value, a);
        for (size_t i = 0; i < x.value; i++)
            check(capture[placed.places[i]] == line[i] && placed.places[i] < placed.places[i + 1]);
    }
    end = clp_end(state);
    check(end.number == 0 && end.value <= 1);
    a = clp_list_end(state, lend_room(&room, 1, 12), 1);
    check(same(a, end) && (end.value == 0 || written(&room, a)[0] == CLP_KIND_CUT));
    wrote(&buffer, CLP_LINE_BYTES);
    wrote(&kept, CLP_LINE_BYTES);
}

/* ---- one call with any state, buffer and room: refused as 19 with nothing changed, or as a capture's */

static int led_to(uint64_t state)
{
    uint64_t held = state & CLP_STATE_HELD;
    if (state & CLP_STATE_LONG && held != CLP_LINE_BYTES)
        return 0;
    return state < 16384 && held <= CLP_LINE_BYTES && !((state & CLP_STATE_GRAVE) && (state & CLP_STATE_CR));
}

static void on_call(uint64_t state, size_t buffer_len, const uint8_t *bytes, size_t n, size_t room_len)
{
    const uint8_t *part = lend_copy(&text, bytes, n);
    int fits = led_to(state) && buffer_len == CLP_LINE_BYTES;
    clp_joined x = clp_join(state, lend_room(&buffer, buffer_len, 13), buffer_len, part, n), y;
    clp_answer end = clp_end(state), a;
    if (fits)
        check(x.number <= 1 && x.used <= n && (n == 0 || x.used > 0) && led_to(x.state));
    else
        check(x.number == CLP_REFUSED_ROOM && x.value == 0 && x.used == 0 && x.state == state);
    wrote(&buffer, fits ? CLP_LINE_BYTES : 0);
    memcpy(kept.bytes + EDGE, buffer.bytes + EDGE, CLP_LINE_BYTES); /* what joining leaves */

    y = clp_list(state, lend_room(&buffer, buffer_len, 13), buffer_len, part, n, lend_room(&room, room_len, 14), room_len);
    if (fits && room_len >= CLP_READING_BYTES) {
        check(y.number == 0 && y.used == x.used && y.state == x.state);
        check((y.value == CLP_NONE) == (x.number == 0 && x.value == CLP_NONE));
        wrote(&room, y.value == CLP_NONE ? 0 : (size_t)y.value);
        check(memcmp(wrote(&buffer, CLP_LINE_BYTES), kept.bytes + EDGE, CLP_LINE_BYTES) == 0);
    } else {
        check(y.number == CLP_REFUSED_ROOM && y.value == 0 && y.used == 0 && y.state == state);
        wrote(&room, 0);
        wrote(&buffer, 0);
    }

    check(led_to(state) ? end.number == 0 && end.value <= 1 : is(end, CLP_REFUSED_ROOM, 0));
    a = clp_list_end(state, lend_room(&room, room_len % 3, 15), room_len % 3);
    written(&room, a);
    check(end.number == 0 && end.value > room_len % 3 ? is(a, CLP_REFUSED_ROOM, 0) : same(a, end));
}

/* ---- a tree, and a text in it */

/* A text refused as 12 at a place: up to it, it is the beginning of a target, and with the byte there it is none, whatever follows. */
static void on_text(const uint8_t *target, size_t m, size_t place)
{
    static uint8_t good[MOST + ENDING_BYTES];
    size_t i = 0;
    check(m > 0 && place <= m);
    while (clp_resolve(good, end_with(good, target, place, i), 0, 0, 0, 0, 0).number == CLP_REFUSED_TARGET)
        check(++i < MOST_ENDINGS);
    check(place == m || is(clp_resolve(target, place + 1, 0, 0, 0, 0, 0), CLP_REFUSED_TARGET, place));
}

static void on_tree(const uint8_t *bytes, size_t n, const uint8_t *path, size_t m, size_t node, size_t room_len)
{
    static lent list;
    static uint8_t full[CLP_PATH_BYTES];
    const uint8_t *tree = lend_copy(&text, bytes, n), *target = lend_copy(&other, path, m);
    clp_answer good = clp_check_tree(tree, n), all, a, p;
    size_t i, nodes = n / CLP_NODE_BYTES, list_len = room_len % (CLP_TREE_NODES + 1);
    const uint8_t *out;
    check(good.number == 0 ? good.value == 0 && n % CLP_NODE_BYTES == 0 && nodes <= CLP_TREE_NODES
                           : good.number == CLP_REFUSED_TREE && good.value < n && good.value % CLP_NODE_BYTES == 0);

    all = clp_resolve(target, m, tree, n, node, (uint16_t *)(void *)lend_room(&list, 2 * CLP_TREE_NODES, 16), CLP_TREE_NODES);
    check(all.number == 0 || all.number == 12 || (all.number >= 15 && all.number <= 18));
    check((all.number == CLP_REFUSED_TREE) <= (good.number != 0) && (all.number == 0) <= (good.number == 0));
    if (all.number == CLP_REFUSED_TARGET)
        on_text(target, m, (size_t)all.value);
    else
        check((all.number == 17 || all.number == 18 ? all.value < m : all.number == 0 || all.value == (all.number == 15 ? good.value : 0)));
    out = wrote(&list, all.number == 0 && all.value != CLP_SESSION ? 2 * (size_t)all.value : 0);
    for (i = 0; all.number == 0 && all.value != CLP_SESSION && i < all.value; i++) {
        uint16_t found;
        memcpy(&found, out + 2 * i, 2);
        check(found <= nodes);
    }
    a = clp_resolve(target, m, tree, n, node, (uint16_t *)(void *)lend_room(&list, 2 * list_len, 17), list_len);
    wrote(&list, a.number == 0 && a.value != CLP_SESSION ? 2 * (size_t)a.value : 0);
    check(all.number == 0 && all.value != CLP_SESSION && all.value > list_len ? is(a, CLP_REFUSED_ROOM, 0) : same(a, all));

    p = clp_full_path(tree, n, node, lend_room(&room, CLP_PATH_BYTES, 18), CLP_PATH_BYTES);
    memcpy(full, written(&room, p), sizeof full);
    check(good.number != 0 ? same(p, good) : node > nodes ? is(p, CLP_REFUSED_NODE, 0) : p.number == 0);
    a = clp_full_path(tree, n, node, lend_room(&room, room_len, 19), room_len);
    written(&room, a);
    check(p.number == 0 && p.value > room_len ? is(a, CLP_REFUSED_ROOM, 0) : same(a, p));
    /* a full path leads back to its node, unless it has too many segments */
    if (p.number == 0) {
        uint16_t one = 0;
        a = clp_resolve(full, (size_t)p.value, tree, n, 0, &one, 1);
        check((a.number == CLP_REFUSED_TARGET && a.value < p.value && full[a.value] == '/') || (is(a, 0, 1) && one == node));
    }
}

/* A tree that is good by its making: so many nodes with parents, tags and numbers from the input, and a path to one of them. */
static void on_good_tree(const uint8_t *bytes, size_t n, size_t node, size_t room_len)
{
    static uint8_t tree[CLP_TREE_NODES * CLP_NODE_BYTES];
    size_t i, nodes = smaller(n / 2, CLP_TREE_NODES);
    memset(tree, 0, sizeof tree);
    for (i = 0; i < nodes; i++) {
        uint8_t *r = tree + i * CLP_NODE_BYTES;
        size_t parent = bytes[2 * i] % 4 == 0 ? i : bytes[2 * i] * (i + 1) / 256;
        r[0] = CLP_KIND_NODE;
        r[1] = (uint8_t)(parent >> 8);
        r[2] = (uint8_t)parent;
        r[3] = (uint8_t)(1 + bytes[2 * i + 1] % 16);
        memset(r + 4, 'a' + bytes[2 * i + 1] / 16, r[3]);
        r[20] = (uint8_t)((i + 1) >> 8);
        r[21] = (uint8_t)(i + 1);
    }
    check(clp_check_tree(tree, nodes * CLP_NODE_BYTES).number == 0);
    on_tree(tree, nodes * CLP_NODE_BYTES, bytes + 2 * nodes, n - 2 * nodes, node, room_len);
}

enum { MOST_CROWDED = 64 };

/* A crowded tree, good by its making: few parents and numbers from the input, and tags of 16 letters that share their ends and differ in a pair between
 * alone. Then with an earlier record once more as its last, which is refused there. Nearly each record is compared with all before it: they are few. */
static void on_crowded_tree(const uint8_t *bytes, size_t n, size_t node, size_t room_len)
{
    static uint8_t tree[MOST_CROWDED * CLP_NODE_BYTES];
    size_t i, nodes = smaller(n / 2, MOST_CROWDED), length = nodes * CLP_NODE_BYTES, pair = 5 + room_len % 13;
    memset(tree, 0, sizeof tree);
    for (i = 0; i < nodes; i++) {
        uint8_t *r = tree + i * CLP_NODE_BYTES;
        r[0] = CLP_KIND_NODE;
        r[2] = (uint8_t)smaller(bytes[2 * i] % 3, i);
        r[3] = 16;
        memset(r + 4, 'n', 16);
        r[pair] = (uint8_t)('a' + i / 26);
        r[pair + 1] = (uint8_t)('A' + i % 26);
        r[21] = (uint8_t)(1 + bytes[2 * i + 1] % 3);
    }
    check(is(clp_check_tree(lend_copy(&text, tree, length), length), 0, 0));
    if (nodes < 2)
        return;
    memcpy(tree + length - CLP_NODE_BYTES, tree + node % (nodes - 1) * CLP_NODE_BYTES, CLP_NODE_BYTES);
    check(is(clp_check_tree(lend_copy(&text, tree, length), length), CLP_REFUSED_TREE, length - CLP_NODE_BYTES));
}

/* ---- replies */

enum { MOST_REPLY = MOST / 3 }; /* the records of such a reply, and its writing, fit into a room of MOST */

/* The length of the record of a reply that so many bytes begin with, 0 where there is none. */
static size_t reply_record_len(const uint8_t *records, size_t left)
{
    static const uint8_t lengths[] = {CLP_ITEM_BYTES, CLP_GROUP_BYTES, CLP_END_GROUP_BYTES, CLP_END_OUTPUT_BYTES};
    size_t length = left > 0 && records[0] >= CLP_KIND_ITEM && records[0] <= CLP_KIND_END_OUTPUT ? lengths[records[0] - CLP_KIND_ITEM] : 0;
    return length <= left ? length : 0;
}

static int starts_line(const uint8_t *reply, size_t at)
{
    return at == 0 || reply[at - 1] == '\r' || reply[at - 1] == '\n';
}

static int ends_line(const uint8_t *reply, size_t n, size_t at)
{
    return at == n || reply[at] == '\r' || reply[at] == '\n';
}

/* The records of a reply that is not refused: parts in order inside the reply, each where it must stand; groups ended; the last one ends the reply. */
static void on_reply_records(const uint8_t *reply, size_t n, const uint8_t *records, size_t m)
{
    size_t i, length, end = 0, depth = 0;
    check(m > 0 && records[m - 1] == CLP_KIND_END_OUTPUT);
    for (i = 0; i < m; i += length) {
        const uint8_t *r = records + i;
        length = reply_record_len(r, m - i);
        check(length > 0);
        if (r[0] == CLP_KIND_ITEM) {
            size_t key = CLP_FIELD(r + 1), value = CLP_FIELD(r + 5);
            check(key >= end && starts_line(reply, key) && CLP_FIELD(r + 3) >= 1 && CLP_FIELD(r + 3) <= 64);
            end = value + CLP_FIELD(r + 7);
            check(value == key + CLP_FIELD(r + 3) + 1 && reply[value - 1] == '=' && end <= n && ends_line(reply, n, end));
        } else if (r[0] == CLP_KIND_GROUP) {
            size_t type = CLP_FIELD(r + 1);
            check(type >= end + 11 && starts_line(reply, type - 11) && memcmp(reply + type - 11, "begingroup=", 11) == 0);
            end = type + CLP_FIELD(r + 3);
            check(CLP_FIELD(r + 3) >= 1 && CLP_FIELD(r + 3) <= 64 && end <= n && ends_line(reply, n, end) && ++depth <= CLP_REPLY_GROUPS);
        } else if (r[0] == CLP_KIND_END_GROUP)
            check(depth-- > 0);
        else
            check(depth == 0 && i + length == m);
    }
}

/* What records say, as records over a text of its own: parts one after another, values as plain bytes. */
typedef struct {
    uint8_t records[CLP_REPLY_RECORDS_BYTES], text[CLP_REPLY_BYTES];
    size_t records_len, text_len;
} plain;

/* Puts a part at the text's end, and its fields at a place of the records. */
static void put_part(plain *p, uint8_t *fields, const uint8_t *bytes, size_t length)
{
    check(p->text_len + length <= sizeof p->text);
    if (length > 0)
        memcpy(p->text + p->text_len, bytes, length);
    fields[0] = (uint8_t)(p->text_len >> 8);
    fields[1] = (uint8_t)p->text_len;
    fields[2] = (uint8_t)(length >> 8);
    fields[3] = (uint8_t)length;
    p->text_len += length;
}

/* Raw values, of a reply, are put through clp_reply_value; plain ones, for the writer, are taken as they are. */
static void make_plain(plain *p, const uint8_t *bytes, const uint8_t *records, size_t m, int raw)
{
    static uint8_t value[CLP_REPLY_BYTES];
    size_t i, length;
    p->text_len = 0;
    for (i = 0; i < m; i += length) {
        const uint8_t *r = records + i;
        uint8_t *to = p->records + i;
        length = reply_record_len(r, m - i);
        check(length > 0);
        to[0] = r[0];
        if (length > 1)
            put_part(p, to + 1, bytes + CLP_FIELD(r + 1), CLP_FIELD(r + 3));
        if (length == CLP_ITEM_BYTES && raw) {
            clp_answer a = clp_reply_value(bytes + CLP_FIELD(r + 5), CLP_FIELD(r + 7), value, sizeof value);
            check(a.number == 0 && a.value <= CLP_FIELD(r + 7));
            put_part(p, to + 5, value, (size_t)a.value);
        } else if (length == CLP_ITEM_BYTES)
            put_part(p, to + 5, bytes + CLP_FIELD(r + 5), CLP_FIELD(r + 7));
    }
    p->records_len = m;
}

/* Whether a reply, read, says the same. */
static int says(const plain *p, const uint8_t *reply, size_t n)
{
    static uint8_t records[CLP_REPLY_RECORDS_BYTES];
    static plain read;
    clp_answer a = clp_read_reply(reply, n, records, sizeof records);
    if (a.number != 0 || a.value != p->records_len)
        return 0;
    on_reply_records(reply, n, records, (size_t)a.value);
    make_plain(&read, reply, records, (size_t)a.value, 1);
    return read.text_len == p->text_len && memcmp(read.text, p->text, p->text_len) == 0 && memcmp(read.records, p->records, p->records_len) == 0;
}

/* Room that is exactly what is needed, one byte less, or any. */
static size_t sizes_near(size_t needed, size_t any, size_t which)
{
    return which == 0 ? needed : which == 1 && needed > 0 ? needed - 1 : any;
}

static int is_reply_refusal(clp_answer a)
{
    return a.number >= CLP_REFUSED_REPLY_LINE && a.number <= CLP_REFUSED_NO_END;
}

static void on_reply(const uint8_t *bytes, size_t n, size_t room_len)
{
    static uint8_t records[MOST], swapped[MOST_REPLY], writing[MOST];
    static plain said;
    const uint8_t *reply;
    clp_answer full, a;
    size_t i, m;
    n = smaller(n, MOST_REPLY);
    reply = lend_copy(&text, bytes, n);
    full = clp_read_reply(reply, n, lend_room(&room, MOST, 20), MOST);
    m = full.number == 0 ? (size_t)full.value : 0;
    memcpy(records, written(&room, full), m);
    for (i = 0; i < 3; i++) {
        size_t length = sizes_near(m, room_len, i);
        a = clp_read_reply(reply, n, lend_room(&room, length, 21), length);
        written(&room, a);
        check(m > length ? is(a, CLP_REFUSED_ROOM, 0) : same(a, full));
    }
    check(is_copy(&text, bytes));

    /* CR for LF and LF for CR is the same reply: a CR LF then has an empty line between */
    for (i = 0; i < n; i++)
        swapped[i] = bytes[i] == '\r' ? '\n' : bytes[i] == '\n' ? '\r' : bytes[i];
    a = clp_read_reply(lend_copy(&other, swapped, n), n, lend_room(&room, MOST, 22), MOST);
    check(same(a, full) && memcmp(written(&room, a), records, m) == 0);

    if (full.number != 0) {
        /* what stands before a refused line is good, and only not ended */
        check(is_reply_refusal(full) && (full.number == CLP_REFUSED_NO_END ? full.value == n : full.value < n && starts_line(bytes, (size_t)full.value)));
        check(is(clp_read_reply(reply, (size_t)full.value, 0, 0), CLP_REFUSED_NO_END, full.value));
        return;
    }
    on_reply_records(bytes, n, records, m);
    make_plain(&said, bytes, records, m, 1);
    a = clp_write_reply(said.records, said.records_len, said.text, said.text_len, lend_room(&room, MOST, 23), MOST);
    check(a.number == 0 && a.value <= 2 * n + 1);
    memcpy(writing, written(&room, a), (size_t)a.value);
    check(says(&said, writing, (size_t)a.value));
}

/* Records over a text, whatever they are. */
static void on_to_write(const uint8_t *bytes, size_t m, const uint8_t *part, size_t n, size_t room_len)
{
    static uint8_t writing[CLP_REPLY_BYTES];
    static plain said;
    const uint8_t *records = lend_copy(&other, bytes, m), *parts = lend_copy(&text, part, n);
    clp_answer full = clp_write_reply(records, m, parts, n, lend_room(&room, CLP_REPLY_BYTES, 24), CLP_REPLY_BYTES), a;
    size_t i, length, end = 0, needed = full.number == 0 ? (size_t)full.value : 0;
    memcpy(writing, written(&room, full), needed);
    for (i = 0; i < 3; i++) {
        length = sizes_near(needed, room_len, i);
        a = clp_write_reply(records, m, parts, n, lend_room(&room, length, 25), length);
        written(&room, a);
        check(needed > length ? is(a, CLP_REFUSED_ROOM, 0) : same(a, full));
    }
    check(is_copy(&other, bytes) && is_copy(&text, part));
    if (full.number != 0) {
        check(is_reply_refusal(full) && (full.number == CLP_REFUSED_NO_END ? full.value == m : full.value < m));
        check(is(clp_write_reply(records, (size_t)full.value, parts, n, 0, 0), CLP_REFUSED_NO_END, full.value));
        return;
    }
    /* up to and with the first end of the output, and nothing after it */
    do {
        length = reply_record_len(bytes + end, m - end);
        check(length > 0);
        end += length;
    } while (bytes[end - 1] != CLP_KIND_END_OUTPUT || length != CLP_END_OUTPUT_BYTES);
    a = clp_write_reply(records, end, parts, n, lend_room(&room, CLP_REPLY_BYTES, 26), CLP_REPLY_BYTES);
    check(same(a, full) && memcmp(written(&room, a), writing, (size_t)full.value) == 0);
    check(writing[full.value - 1] == '\n' && full.value >= 10 && memcmp(writing + full.value - 10, "endoutput\n", 10) == 0);
    make_plain(&said, part, bytes, end, 0);
    check(says(&said, writing, (size_t)full.value));
}

/* The answer, without room, to records that are good: they don't fit, or are too long for a reply. */
static int good_or_long(clp_answer a)
{
    return is(a, CLP_REFUSED_ROOM, 0) || is(a, CLP_REFUSED_REPLY_LINE, 0);
}

/* Records that are good by their making: a name before the text, of which values are parts; groups from the input's bytes. */
static void on_good_records(const uint8_t *bytes, size_t n, size_t room_len)
{
    static uint8_t records[CLP_ITEM_BYTES * 200 + CLP_REPLY_GROUPS + 1], parts[4 + MOST];
    size_t i, m = 0, depth = 0;
    memcpy(parts, "aZ_9", 4);
    if (n > 0)
        memcpy(parts + 4, bytes, n);
    for (i = 0; i + 3 < n && i < 800; i += 4) {
        size_t place = 4 + (bytes[i + 1] | (size_t)bytes[i + 2] << 8) % n, length = smaller(bytes[i + 3] * (1u + bytes[i] / 64), 4 + n - place);
        uint8_t *r = records + m;
        int opens = bytes[i] % 8 == 1 && depth < CLP_REPLY_GROUPS, ends = bytes[i] % 8 == 2 && depth > 0;
        memset(r, 0, CLP_ITEM_BYTES);
        r[0] = opens ? CLP_KIND_GROUP : ends ? CLP_KIND_END_GROUP : CLP_KIND_ITEM;
        r[4] = (uint8_t)(1 + bytes[i] / 8 % 4);
        if (!opens && !ends) {
            r[5] = (uint8_t)(place >> 8);
            r[6] = (uint8_t)place;
            r[7] = (uint8_t)(length >> 8);
            r[8] = (uint8_t)length;
        }
        depth += (size_t)opens - (size_t)ends;
        m += opens ? CLP_GROUP_BYTES : ends ? CLP_END_GROUP_BYTES : CLP_ITEM_BYTES;
    }
    memset(records + m, CLP_KIND_END_GROUP, depth);
    m += depth;
    records[m++] = CLP_KIND_END_OUTPUT;
    check(good_or_long(clp_write_reply(records, m, parts, 4 + n, 0, 0)));
    on_to_write(records, m, parts, 4 + n, room_len);
}

/* Records behind so many small items that their places pass 65,535: the same answer, further on. */
static void on_late_records(const uint8_t *bytes, size_t m, const uint8_t *part, size_t n)
{
    enum { ITEMS = 7300, BEFORE = ITEMS * CLP_ITEM_BYTES, LINES = ITEMS * 3 };
    static uint8_t records[BEFORE + MOST], parts[1 + MOST], writing[CLP_REPLY_BYTES];
    static const uint8_t item[CLP_ITEM_BYTES] = {CLP_KIND_ITEM, 0, 0, 0, 1, 0, 1, 0, 0};
    clp_answer alone, late;
    size_t i;
    for (i = 0; i < ITEMS; i++)
        memcpy(records + i * sizeof item, item, sizeof item);
    if (m > 0)
        memcpy(records + BEFORE, bytes, m);
    parts[0] = 'a';
    if (n > 0)
        memcpy(parts + 1, part, n);
    alone = clp_write_reply(bytes, m, parts, 1 + n, writing, sizeof writing);
    late = clp_write_reply(records, BEFORE + m, parts, 1 + n, writing, sizeof writing);
    if (alone.number == 0)
        check(LINES + alone.value > CLP_REPLY_BYTES ? is(late, CLP_REFUSED_REPLY_LINE, 0) : is(late, 0, LINES + alone.value));
    else
        check(is(late, alone.number, BEFORE + alone.value) || (is(alone, CLP_REFUSED_REPLY_LINE, 0) && same(late, alone)));
}

/* A raw value: accepted exactly where a reply can have it, and then it stands for what is written as such. */
static void on_value(const uint8_t *bytes, size_t n, size_t room_len)
{
    static uint8_t value[MOST], reply[MOST + 12], records[3 * (MOST + 12)];
    const uint8_t *raw = lend_copy(&text, bytes, n);
    int is_quoted = n > 0 && bytes[0] == '"', is_value;
    size_t i;
    clp_answer full = clp_reply_value(raw, n, lend_room(&room, MOST, 27), MOST), a, r;
    memcpy(value, written(&room, full), full.number == 0 ? (size_t)full.value : 0);
    for (i = 0; i < 3; i++) {
        size_t needed = full.number == 0 ? (size_t)full.value : 0, length = sizes_near(needed, room_len, i);
        a = clp_reply_value(raw, n, lend_room(&room, length, 28), length);
        written(&room, a);
        check(needed > length ? is(a, CLP_REFUSED_ROOM, 0) : same(a, full));
    }
    check(is_copy(&text, bytes));
    if (!is_quoted) {
        check(is(full, 0, n) && memcmp(value, bytes, n) == 0);
        return;
    }
    check(full.number == 0 ? full.value <= n - 2 : is(full, CLP_REFUSED_REPLY_LINE, 0));
    /* as the value of a reply's only item */
    memcpy(reply, "a=", 2);
    memcpy(reply + 2, bytes, n);
    memcpy(reply + 2 + n, "\nendoutput", 10);
    r = clp_read_reply(reply, n + 12, records, sizeof records);
    is_value = r.number == 0 && CLP_FIELD(records + 7) == n;
    check(is_value == (full.number == 0));
    if (is_value) {
        static const uint8_t one[] = {CLP_KIND_ITEM, 0, 0, 0, 1, 0, 1};
        uint8_t parts[1 + MOST], item[CLP_ITEM_BYTES + 1];
        memcpy(item, one, sizeof one);
        item[7] = (uint8_t)(full.value >> 8);
        item[8] = (uint8_t)full.value;
        item[9] = CLP_KIND_END_OUTPUT;
        parts[0] = 'a';
        memcpy(parts + 1, value, (size_t)full.value);
        on_to_write(item, sizeof item, parts, 1 + (size_t)full.value, room_len);
    }
}

int LLVMFuzzerTestOneInput(const uint8_t *data, size_t size)
{
    static const uint16_t lengths[] = {CLP_LINE_BYTES, CLP_LINE_BYTES, CLP_LINE_BYTES, 0, 1, CLP_LINE_BYTES - 1, CLP_LINE_BYTES + 1, 4096};
    uint64_t state;
    size_t room_len, cut, node, split, buffer_len;
    if (size < 10 || size > MOST)
        return 0;
    /* a state from anywhere; a last bit sets all bits */
    state = (data[0] & 0x80) && (data[1] & 0x80) ? UINT64_MAX - data[0] : (uint64_t)(data[0] | data[1] << 8);
    room_len = (size_t)(data[2] | data[3] << 8) % 2600;
    buffer_len = lengths[data[4] % 8];
    cut = data[5];
    node = (size_t)(data[6] | data[7] << 8) % 600;
    split = (size_t)(data[8] | data[9] << 8);
    data += 10;
    size -= 10;
    split = smaller(split, size);
    on_line(data, size, room_len, split);
    on_capture(data, size, cut);
    on_call(state, buffer_len, data, size, room_len);
    on_records(data, size, room_len);
    on_tree(data, split, data + split, size - split, node, room_len);
    on_good_tree(data, size, node, room_len);
    on_crowded_tree(data, size, node, room_len);
    on_reply(data, size, room_len);
    on_to_write(data, split, data + split, size - split, room_len);
    on_good_records(data, size, room_len);
    if (cut % 8 == 7) /* it takes longer than the others */
        on_late_records(data, split, data + split, size - split);
    on_value(data, size, room_len);
    return 0;
}
