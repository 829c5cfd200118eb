/* What include/clp.h says and a program can try: the worked bytes, the places of refusals, the constants, the sizes, who gives 19, bad records, replies,
 * and null for an empty slice. */
#include <string.h>
#include "check.h"
#include "clp.h"
#include "worst.h"

#define TEXT(literal) (const uint8_t *)literal, sizeof literal - 1

static uint8_t room[CLP_PATH_BYTES], kept[CLP_PATH_BYTES];

/* The room with a fill that no answer leaves by chance. */
static uint8_t *lend(void)
{
    size_t i;
    for (i = 0; i < sizeof room; i++)
        room[i] = kept[i] = (uint8_t)(i * 37 + 11);
    return room;
}

static int unchanged(void)
{
    return memcmp(room, kept, sizeof room) == 0;
}

static int is(clp_answer a, uint64_t number, uint64_t value)
{
    return a.number == number && a.value == value;
}

static int is_joined(clp_joined a, uint64_t number, uint64_t value, uint64_t used, uint64_t state)
{
    return a.number == number && a.value == value && a.used == used && a.state == state;
}

/* ---- the header's worked bytes */

static const uint8_t RECORDS[] = {
    0x01, 0x0A,
    0x02, 0x08, 0x00, 0x0C, 0x00, 0x01,
    0x03, 0x00, 0x0E, 0x00, 0x0D,
    0x04, 0x00, 0x1C, 0x00, 0x04, 0x00, 0x00, 0x20, 0x00, 0x00};

static const uint8_t TREE[] = {
    0x10, 0x00, 0x00, 0x06, 0x73, 0x79, 0x73, 0x74, 0x65, 0x6D, 0x00, 0x00, 0x00, 0x00, 0x00, 0x00, 0x00, 0x00, 0x00, 0x00, 0x00, 0x01,
    0x10, 0x00, 0x01, 0x03, 0x63, 0x70, 0x75, 0x00, 0x00, 0x00, 0x00, 0x00, 0x00, 0x00, 0x00, 0x00, 0x00, 0x00, 0x00, 0x00, 0x00, 0x04};

static void worked_records(void)
{
    static const uint8_t refusal[] = {0x05, 0x04, 0x00, 0x06};
    uint8_t buffer[CLP_LINE_BYTES];
    clp_joined a;
    CHECK(sizeof RECORDS == 23);
    CHECK(is(clp_read(TEXT("show -level 2 /system1/cpu* Name"), lend(), sizeof room), 0, sizeof RECORDS));
    CHECK(memcmp(room, RECORDS, sizeof RECORDS) == 0);
    CHECK(memcmp(room + sizeof RECORDS, kept + sizeof RECORDS, sizeof room - sizeof RECORDS) == 0);
    CHECK(CLP_FIELD(RECORDS + 4) == 12 && CLP_FIELD(RECORDS + 9) == 14);
    CHECK(is(clp_read(TEXT("reset \"os1"), lend(), sizeof room), CLP_REFUSED_QUOTE, 6) && unchanged());
    a = clp_list(0, buffer, sizeof buffer, TEXT("reset \"os1\n"), lend(), sizeof room);
    CHECK(is_joined(a, 0, CLP_REFUSAL_BYTES, 11, 0) && memcmp(room, refusal, sizeof refusal) == 0);
    CHECK(is(clp_list_end(2, lend(), 1), 0, CLP_CUT_BYTES) && room[0] == CLP_KIND_CUT);
    CHECK(is(clp_read(TEXT("  "), lend(), sizeof room), 0, CLP_BLANK_BYTES) && room[0] == CLP_KIND_BLANK);
    CHECK(is(clp_meant(TEXT("\"a`\"b\""), lend(), sizeof room), 0, 3) && memcmp(room, "a\"b", 3) == 0);
}

/* Letters in either case: SHOW -L ALL is show -level all, its argument as the line has it; a tag, SESSION, a name and a value by their bytes alone. */
static void either_case(void)
{
    static const uint8_t records[] = {0x01, 0x0A, 0x02, 0x08, 0x00, 0x08, 0x00, 0x03};
    static const char writing[] = "show -level all -display ALL";
    uint16_t list[2] = {7, 7};
    CHECK(is(clp_read(TEXT("SHOW -L ALL"), lend(), sizeof room), 0, sizeof records) && memcmp(room, records, sizeof records) == 0);
    CHECK(is(clp_read(TEXT("show -F -force"), lend(), sizeof room), CLP_REFUSED_OPTION_TWICE, 8) && unchanged());
    CHECK(is(clp_canonical(TEXT("Show -l aLL -D ALL"), lend(), sizeof room), 0, sizeof writing - 1) && memcmp(room, writing, sizeof writing - 1) == 0);
    CHECK(is(clp_canonical(TEXT("HELP Show"), lend(), sizeof room), 0, 9) && memcmp(room, "help Show", 9) == 0);
    CHECK(is(clp_canonical(TEXT("SET A=B"), lend(), sizeof room), 0, 7) && memcmp(room, "set A=B", 7) == 0);
    CHECK(is(clp_read(TEXT("show session"), lend(), sizeof room), CLP_REFUSED_TARGET, 12) && unchanged());
    CHECK(is(clp_resolve(TEXT("CPU*"), TREE, sizeof TREE, 1, list, 2), CLP_REFUSED_CHILD, 0) && list[0] == 7);
    CHECK(is(clp_resolve(TEXT("CPU4"), TREE, sizeof TREE, 1, list, 2), CLP_REFUSED_CHILD, 0) && list[0] == 7);
}

/* An option that the verb can't have: refused at its term, by either name and in either case, after 7 and before 8, 9 and 10; where it is no option, never. */
static void not_for_verb(void)
{
    static const uint8_t refusal[] = {0x05, 0x14, 0x00, 0x03};
    uint8_t buffer[CLP_LINE_BYTES];
    CHECK(is(clp_read(TEXT("cd -f"), lend(), sizeof room), CLP_REFUSED_NOT_FOR_VERB, 3) && unchanged());
    CHECK(is(clp_read(TEXT("EXIT -WAIT"), lend(), sizeof room), CLP_REFUSED_NOT_FOR_VERB, 5) && unchanged());
    CHECK(is(clp_canonical(TEXT("create -source x"), lend(), sizeof room), CLP_REFUSED_NOT_FOR_VERB, 7) && unchanged());
    CHECK(is(clp_read(TEXT("cd -zz -f"), lend(), sizeof room), CLP_REFUSED_OPTION, 3) && unchanged());
    CHECK(is(clp_read(TEXT("cd -f -f"), lend(), sizeof room), CLP_REFUSED_NOT_FOR_VERB, 3) && unchanged());
    CHECK(is(clp_read(TEXT("cd -x -f -x"), lend(), sizeof room), CLP_REFUSED_NOT_FOR_VERB, 6) && unchanged());
    CHECK(is(clp_read(TEXT("set -level"), lend(), sizeof room), CLP_REFUSED_NOT_FOR_VERB, 4) && unchanged());
    CHECK(is(clp_read(TEXT("set -level 02"), lend(), sizeof room), CLP_REFUSED_NOT_FOR_VERB, 4) && unchanged());
    CHECK(is(clp_read(TEXT("cd / -f"), lend(), sizeof room), CLP_REFUSED_LATE_OPTION, 5) && unchanged());
    CHECK(is(clp_read(TEXT("show -level -source x"), lend(), sizeof room), CLP_REFUSED_NO_ARGUMENT, 12) && unchanged());
    CHECK(is(clp_read(TEXT("cd -f"), lend(), 0), CLP_REFUSED_NOT_FOR_VERB, 3) && unchanged());
    CHECK(clp_target(TEXT("cd -f /")).position == 0 && clp_target(TEXT("cd -f /")).length == 0);
    CHECK(is_joined(clp_list(0, buffer, sizeof buffer, TEXT("cd -f\n"), lend(), sizeof room), 0, CLP_REFUSAL_BYTES, 6, 0));
    CHECK(memcmp(room, refusal, sizeof refusal) == 0);
}

/* Whether a line is refused as this number at this place, by reading and by writing alike, with nothing changed. */
static int refused(const uint8_t *line, size_t n, uint64_t number, uint64_t place)
{
    return is(clp_read(line, n, lend(), sizeof room), number, place) && unchanged() && is(clp_canonical(line, n, lend(), sizeof room), number, place) &&
           unchanged() && is(clp_read(line, n, lend(), 0), number, place);
}

/* 10, 12 and 13 point at the first byte that can't stay, which may be the term's end: what stands before it is the beginning of a good term. */
static void places(void)
{
    static uint8_t line[CLP_LINE_BYTES], text[2000];
    static const uint8_t refusal[] = {0x05, 0x0D, 0x00, 0x07};
    uint8_t buffer[CLP_LINE_BYTES];
    uint16_t one = 7;
    size_t i, n;
    CHECK(refused(TEXT("show -level 02"), CLP_REFUSED_ARGUMENT, 13));
    CHECK(refused(TEXT("SHOW -L ALx"), CLP_REFUSED_ARGUMENT, 10));
    CHECK(refused(TEXT("cd -k 4294967296"), CLP_REFUSED_ARGUMENT, 15));
    CHECK(refused(TEXT("load -source `\"a\"\""), CLP_REFUSED_ARGUMENT, 16));
    CHECK(refused(TEXT("show -d a=(b,"), CLP_REFUSED_ARGUMENT, 13));
    CHECK(refused(TEXT("cd /system1/"), CLP_REFUSED_TARGET, 12));
    CHECK(refused(TEXT("cd a65536"), CLP_REFUSED_TARGET, 8));
    CHECK(refused(TEXT("cd \"\""), CLP_REFUSED_TARGET, 3));
    CHECK(refused(TEXT("set a=b=c"), CLP_REFUSED_PROPERTY, 7));
    CHECK(refused(TEXT("set / a=\"b\"c d="), CLP_REFUSED_PROPERTY, 11));
    CHECK(refused(TEXT("help a=b"), CLP_REFUSED_PROPERTY, 6));
    CHECK(refused(TEXT("show -l -02"), CLP_REFUSED_NO_ARGUMENT, 8));
    CHECK(is_joined(clp_list(0, buffer, sizeof buffer, TEXT("set a=b=c\n"), lend(), sizeof room), 0, CLP_REFUSAL_BYTES, 10, 0));
    CHECK(memcmp(room, refusal, sizeof refusal) == 0);

    /* the place may be the line's length, also where no more would fit */
    memset(line, ' ', sizeof line);
    add(line, 0, "set");
    add(line, CLP_LINE_BYTES - 3, "a=(");
    CHECK(refused(line, sizeof line, CLP_REFUSED_PROPERTY, CLP_LINE_BYTES));
    /* a 17th segment: the separator before it */
    for (n = add(line, 0, "cd "), i = 0; i < 17; i++)
        n = add(line, n, "/a1");
    CHECK(refused(line, n, CLP_REFUSED_TARGET, 51));

    /* in a text that is resolved, before 15 and 16 */
    memset(text, 'x', sizeof text);
    CHECK(is(clp_resolve(TEXT("system1/"), TREE, sizeof TREE, 0, &one, 1), CLP_REFUSED_TARGET, 8) && one == 7);
    CHECK(is(clp_resolve(TEXT("cpu 4"), TREE, sizeof TREE - 1, 9, &one, 1), CLP_REFUSED_TARGET, 3) && one == 7);
    CHECK(is(clp_resolve(text, sizeof text, TREE, sizeof TREE, 0, &one, 1), CLP_REFUSED_TARGET, 16) && one == 7);
    CHECK(is(clp_resolve(TEXT("\377"), TREE, sizeof TREE, 0, &one, 1), CLP_REFUSED_TARGET, 0) && one == 7);
}

static void worked_tree(void)
{
    uint16_t list[2] = {7, 7};
    CHECK(sizeof TREE == 2 * CLP_NODE_BYTES);
    CHECK(is(clp_check_tree(TREE, sizeof TREE), 0, 0));
    CHECK(is(clp_full_path(TREE, sizeof TREE, 2, lend(), sizeof room), 0, 13) && memcmp(room, "/system1/cpu4", 13) == 0);
    CHECK(is(clp_full_path(TREE, sizeof TREE, 0, lend(), sizeof room), 0, 1) && room[0] == '/');
    CHECK(is(clp_resolve(TEXT("cpu*"), TREE, sizeof TREE, 1, list, 2), 0, 1) && list[0] == 2 && list[1] == 7);
    CHECK(is(clp_resolve(TEXT("SESSION"), TREE, sizeof TREE, 1, list, 0), 0, CLP_SESSION));
}

/* ---- the constants */

/* The second byte of a line's record at a place: the verb's number, or the first option's. */
static unsigned number_in(const char *line, size_t at)
{
    clp_answer a = clp_read((const uint8_t *)line, strlen(line), lend(), sizeof room);
    CHECK(a.number == 0 && a.value > at);
    return room[at + 1];
}

static void numbers(void)
{
    CHECK(number_in("cd", 0) == CLP_VERB_CD && number_in("create", 0) == CLP_VERB_CREATE && number_in("delete", 0) == CLP_VERB_DELETE);
    CHECK(number_in("dump", 0) == CLP_VERB_DUMP && number_in("exit", 0) == CLP_VERB_EXIT && number_in("help", 0) == CLP_VERB_HELP);
    CHECK(number_in("load", 0) == CLP_VERB_LOAD && number_in("reset", 0) == CLP_VERB_RESET && number_in("set", 0) == CLP_VERB_SET);
    CHECK(number_in("show", 0) == CLP_VERB_SHOW && number_in("start", 0) == CLP_VERB_START && number_in("stop", 0) == CLP_VERB_STOP);
    CHECK(number_in("version", 0) == CLP_VERB_VERSION);
    CHECK(number_in("show -all", 2) == CLP_OPTION_ALL && number_in("show -a", 2) == CLP_OPTION_ALL);
    CHECK(number_in("dump -destination x", 2) == CLP_OPTION_DESTINATION && number_in("load -source x", 2) == CLP_OPTION_SOURCE);
    CHECK(number_in("show -display x", 2) == CLP_OPTION_DISPLAY && number_in("show -d x", 2) == CLP_OPTION_DISPLAY);
    CHECK(number_in("cd -examine", 2) == CLP_OPTION_EXAMINE && number_in("cd -x", 2) == CLP_OPTION_EXAMINE);
    CHECK(number_in("reset -force", 2) == CLP_OPTION_FORCE && number_in("show -f", 2) == CLP_OPTION_FORCE);
    CHECK(number_in("cd -help", 2) == CLP_OPTION_HELP && number_in("cd -h", 2) == CLP_OPTION_HELP);
    CHECK(number_in("cd -keep 1", 2) == CLP_OPTION_KEEP && number_in("cd -k 1", 2) == CLP_OPTION_KEEP);
    CHECK(number_in("show -level 1", 2) == CLP_OPTION_LEVEL && number_in("show -l 1", 2) == CLP_OPTION_LEVEL);
    CHECK(number_in("cd -output x", 2) == CLP_OPTION_OUTPUT && number_in("cd -o x", 2) == CLP_OPTION_OUTPUT);
    CHECK(number_in("cd -version", 2) == CLP_OPTION_VERSION && number_in("cd -v", 2) == CLP_OPTION_VERSION);
    CHECK(number_in("cd -wait", 2) == CLP_OPTION_WAIT && number_in("cd -w", 2) == CLP_OPTION_WAIT);
    /* the operator is the sixth byte of a property's record, which stands after the verb's and the target's */
    CHECK(number_in("cd / a", 11) == CLP_OPERATOR_NONE);
    CHECK(number_in("cd / a=b", 11) == CLP_OPERATOR_SET && number_in("cd / a==b", 11) == CLP_OPERATOR_EQUALS);
    CHECK(is(clp_read(TEXT("cd / a"), lend(), sizeof room), 0, CLP_VERB_BYTES + CLP_TARGET_BYTES + CLP_PROPERTY_BYTES));
    CHECK(is(clp_read(TEXT("cd -x"), lend(), sizeof room), 0, CLP_VERB_BYTES + CLP_OPTION_BYTES));
}

static void states(void)
{
    uint8_t buffer[CLP_LINE_BYTES] = {0};
    CHECK(is_joined(clp_join(0, buffer, sizeof buffer, TEXT("ab")), 0, CLP_NONE, 2, 2));
    CHECK(is_joined(clp_join(2, buffer, sizeof buffer, TEXT("`")), 0, CLP_NONE, 1, 2 + CLP_STATE_GRAVE));
    CHECK(is_joined(clp_join(2 + CLP_STATE_GRAVE, buffer, sizeof buffer, TEXT("\r")), 0, CLP_NONE, 1, 2 + CLP_STATE_CR));
    CHECK(is_joined(clp_join(2 + CLP_STATE_CR, buffer, sizeof buffer, TEXT("\nc\r\n")), 0, 3, 3, CLP_STATE_CR));
    CHECK(memcmp(buffer, "abc", 3) == 0);
    CHECK(is_joined(clp_join(CLP_STATE_CR, buffer, sizeof buffer, TEXT("\n")), 0, CLP_NONE, 1, 0));
    CHECK(is_joined(clp_join(CLP_LINE_BYTES, buffer, sizeof buffer, TEXT("x")), 0, CLP_NONE, 1, CLP_LINE_BYTES + CLP_STATE_LONG));
    CHECK(is_joined(clp_join(CLP_LINE_BYTES + CLP_STATE_LONG, buffer, sizeof buffer, TEXT("\n")), CLP_REFUSED_LONG_LINE, CLP_LINE_BYTES, 1, 0));
    CHECK((CLP_LINE_BYTES & CLP_STATE_HELD) == CLP_LINE_BYTES);
    CHECK(is(clp_end(2), 0, 1) && is(clp_end(CLP_STATE_GRAVE), 0, 1) && is(clp_end(CLP_STATE_CR), 0, 0) && is(clp_end(0), 0, 0));
}

/* ---- the sizes: what is reached by some input, and with one byte less refused with nothing changed; the header's rooms are enough for it */

static void sizes(void)
{
    static uint8_t line[CLP_LINE_BYTES], tree[CLP_TREE_NODES * CLP_NODE_BYTES], text[CLP_TEXT_BYTES];
    static uint8_t blanks[CLP_READING_BYTES];
    static uint16_t list[CLP_TREE_NODES];
    size_t n = most_records(line), i;
    clp_answer a;
    CHECK(n <= CLP_LINE_BYTES && MOST_RECORDS == 387);
    CHECK(is(clp_read(line, n, lend(), MOST_RECORDS - 1), CLP_REFUSED_ROOM, 0) && unchanged());
    CHECK(is(clp_read(line, n, room, CLP_READING_BYTES), 0, MOST_RECORDS));
    CHECK(memcmp(room + MOST_RECORDS, kept + MOST_RECORDS, sizeof room - MOST_RECORDS) == 0);
    CHECK(is(clp_read(line, n, lend(), MOST_RECORDS), 0, MOST_RECORDS));
    a = clp_records_text(room, MOST_RECORDS, text, sizeof text);
    CHECK(a.number == 0 && a.value <= CLP_TEXT_BYTES);

    n = most_written(line);
    CHECK(n == CLP_LINE_BYTES);
    CHECK(is(clp_canonical(line, n, lend(), MOST_WRITTEN - 1), CLP_REFUSED_ROOM, 0) && unchanged());
    CHECK(is(clp_canonical(line, n, room, CLP_CANONICAL_BYTES), 0, MOST_WRITTEN));
    CHECK(memcmp(room + MOST_WRITTEN, kept + MOST_WRITTEN, sizeof room - MOST_WRITTEN) == 0);
    CHECK(is(clp_canonical(line, n, lend(), MOST_WRITTEN), 0, MOST_WRITTEN));

    memset(blanks, CLP_KIND_BLANK, sizeof blanks);
    CHECK(is(clp_records_text(blanks, sizeof blanks, lend(), CLP_TEXT_BYTES - 1), CLP_REFUSED_ROOM, 0) && unchanged());
    CHECK(is(clp_records_text(blanks, sizeof blanks, room, CLP_TEXT_BYTES), 0, CLP_TEXT_BYTES));

    chain(tree, CLP_TREE_NODES);
    CHECK(is(clp_check_tree(tree, sizeof tree), 0, 0));
    CHECK(is(clp_full_path(tree, sizeof tree, CLP_TREE_NODES, lend(), CLP_PATH_BYTES - 1), CLP_REFUSED_ROOM, 0) && unchanged());
    CHECK(is(clp_full_path(tree, sizeof tree, CLP_TREE_NODES, room, CLP_PATH_BYTES), 0, CLP_PATH_BYTES));

    fan(tree, CLP_TREE_NODES);
    CHECK(is(clp_resolve(TEXT("/a*"), tree, sizeof tree, 0, list, CLP_TREE_NODES - 1), CLP_REFUSED_ROOM, 0) && list[0] == 0);
    CHECK(is(clp_resolve(TEXT("/a*"), tree, sizeof tree, 0, list, CLP_TREE_NODES), 0, CLP_TREE_NODES));
    for (i = 0; i < CLP_TREE_NODES; i++)
        CHECK(list[i] == i + 1);
}

/* ---- who gives 19, as the header's table has it */

static void nineteens(void)
{
    uint8_t buffer[CLP_LINE_BYTES + 1] = {0};
    const uint64_t bad = CLP_LINE_BYTES + 1;
    uint16_t one = 7;
    CHECK(is_joined(clp_join(bad, buffer, CLP_LINE_BYTES, TEXT("a\n")), CLP_REFUSED_ROOM, 0, 0, bad));
    CHECK(is_joined(clp_join(0, buffer, CLP_LINE_BYTES + 1, TEXT("a\n")), CLP_REFUSED_ROOM, 0, 0, 0));
    CHECK(is_joined(clp_join(0, buffer, CLP_LINE_BYTES - 1, TEXT("a\n")), CLP_REFUSED_ROOM, 0, 0, 0));
    CHECK(is(clp_end(bad), CLP_REFUSED_ROOM, 0) && is(clp_end(16384), CLP_REFUSED_ROOM, 0));
    CHECK(is(clp_end(CLP_STATE_GRAVE + CLP_STATE_CR), CLP_REFUSED_ROOM, 0));
    CHECK(is(clp_read(TEXT("show"), lend(), CLP_VERB_BYTES - 1), CLP_REFUSED_ROOM, 0) && unchanged());
    CHECK(is(clp_read(TEXT(""), lend(), 0), CLP_REFUSED_ROOM, 0) && unchanged());
    CHECK(is(clp_canonical(TEXT("show"), lend(), 3), CLP_REFUSED_ROOM, 0) && unchanged());
    CHECK(is(clp_canonical(TEXT(""), lend(), 0), 0, 0) && unchanged());
    CHECK(is(clp_meant(TEXT("a` b"), lend(), 2), CLP_REFUSED_ROOM, 0) && unchanged());
    CHECK(is(clp_meant(TEXT("\"\""), lend(), 0), 0, 0) && unchanged());
    CHECK(is(clp_resolve(TEXT("/"), TREE, sizeof TREE, 0, &one, 0), CLP_REFUSED_ROOM, 0) && one == 7);
    CHECK(is(clp_full_path(TREE, sizeof TREE, 2, lend(), 12), CLP_REFUSED_ROOM, 0) && unchanged());
    CHECK(is_joined(clp_list(0, buffer, CLP_LINE_BYTES, TEXT("a\n"), lend(), CLP_READING_BYTES - 1), CLP_REFUSED_ROOM, 0, 0, 0) && unchanged());
    CHECK(is_joined(clp_list(bad, buffer, CLP_LINE_BYTES, TEXT("a\n"), lend(), sizeof room), CLP_REFUSED_ROOM, 0, 0, bad) && unchanged());
    CHECK(is_joined(clp_list(0, buffer, CLP_LINE_BYTES - 1, TEXT("a\n"), lend(), sizeof room), CLP_REFUSED_ROOM, 0, 0, 0) && unchanged());
    CHECK(is(clp_list_end(bad, lend(), 1), CLP_REFUSED_ROOM, 0) && is(clp_list_end(1, lend(), 0), CLP_REFUSED_ROOM, 0) && unchanged());
    CHECK(is(clp_list_end(0, lend(), 0), 0, 0) && unchanged());
    CHECK(is(clp_records_text(TEXT("\6"), lend(), 5), CLP_REFUSED_ROOM, 0) && unchanged());
    CHECK(buffer[0] == 0 && buffer[CLP_LINE_BYTES] == 0);
}

/* ---- bytes that are no records */

static void bad_records(void)
{
    static const uint8_t lengths[] = {0, CLP_VERB_BYTES, CLP_OPTION_BYTES, CLP_TARGET_BYTES, CLP_PROPERTY_BYTES,
                                      CLP_REFUSAL_BYTES, CLP_BLANK_BYTES, CLP_CUT_BYTES};
    uint8_t records[sizeof RECORDS + CLP_PROPERTY_BYTES];
    unsigned kind;
    size_t cut;
    memcpy(records, RECORDS, sizeof RECORDS);
    memset(records + sizeof RECORDS, 0xFF, CLP_PROPERTY_BYTES);
    for (kind = 0; kind < 256; kind++) {
        /* a record of this kind after good ones: bad where there is no such kind, and where it is cut */
        size_t whole = kind < sizeof lengths ? lengths[kind] : 0;
        records[sizeof RECORDS] = (uint8_t)kind;
        for (cut = 1; cut <= CLP_PROPERTY_BYTES; cut++) {
            clp_answer a = clp_records_text(records, sizeof RECORDS + cut, lend(), sizeof room);
            if (whole != 0 && cut == whole)
                CHECK(a.number == 0);
            else if (whole == 0 || cut < whole)
                CHECK(is(a, CLP_REFUSED_TREE, sizeof RECORDS) && unchanged());
            else /* after a whole record the next one's kind is FFh */
                CHECK(is(a, CLP_REFUSED_TREE, sizeof RECORDS + whole) && unchanged());
            /* 15 comes before 19 */
            if (a.number == CLP_REFUSED_TREE)
                CHECK(is(clp_records_text(records, sizeof RECORDS + cut, lend(), 0), CLP_REFUSED_TREE, a.value) && unchanged());
        }
    }
    CHECK(is(clp_records_text(TREE, sizeof TREE, lend(), sizeof room), CLP_REFUSED_TREE, 0) && unchanged());
    /* what stands in the fields is not judged */
    records[0] = CLP_KIND_VERB;
    records[1] = 0xFF;
    CHECK(is(clp_records_text(records, CLP_VERB_BYTES, lend(), sizeof room), 0, 9) && memcmp(room, "verb 255\n", 9) == 0);
}

/* ---- replies */

static const char REPLY[] = "status=0\nbegingroup=cpu\nName=\"a`\"\nb\"\nendgroup\nendoutput\n";
static const uint8_t REPLY_RECORDS[] = {
    0x40, 0x00, 0x00, 0x00, 0x06, 0x00, 0x07, 0x00, 0x01,
    0x41, 0x00, 0x14, 0x00, 0x03,
    0x40, 0x00, 0x18, 0x00, 0x04, 0x00, 0x1D, 0x00, 0x07,
    0x42,
    0x43};

/* What a function has written into the room, and the rest as it was. */
static int wrote(clp_answer a, const void *bytes, size_t n)
{
    return is(a, 0, n) && memcmp(room, bytes, n) == 0 && memcmp(room + n, kept + n, sizeof room - n) == 0;
}

static void worked_reply(void)
{
    static const uint8_t value[] = {0x61, 0x22, 0x0A, 0x62}, again[] = {0x22, 0x60, 0x22, 0x61, 0x60, 0x60, 0x60, 0x22, 0x0A, 0x62, 0x60, 0x22, 0x22};
    const uint8_t *reply = (const uint8_t *)REPLY;
    uint8_t text[sizeof REPLY], records[sizeof REPLY_RECORDS], written[sizeof REPLY + 5];
    CHECK(sizeof REPLY - 1 == 56 && sizeof REPLY_RECORDS == 25);
    CHECK(REPLY_RECORDS[0] == CLP_KIND_ITEM && REPLY_RECORDS[CLP_ITEM_BYTES] == CLP_KIND_GROUP);
    CHECK(REPLY_RECORDS[2 * CLP_ITEM_BYTES + CLP_GROUP_BYTES] == CLP_KIND_END_GROUP);
    CHECK(REPLY_RECORDS[2 * CLP_ITEM_BYTES + CLP_GROUP_BYTES + CLP_END_GROUP_BYTES] == CLP_KIND_END_OUTPUT);
    CHECK(sizeof REPLY_RECORDS == 2 * CLP_ITEM_BYTES + CLP_GROUP_BYTES + CLP_END_GROUP_BYTES + CLP_END_OUTPUT_BYTES);
    CHECK(wrote(clp_read_reply(TEXT(REPLY), lend(), sizeof room), REPLY_RECORDS, sizeof REPLY_RECORDS));
    CHECK(wrote(clp_reply_value(reply + 29, 7, lend(), sizeof room), value, sizeof value));

    /* plain values, written: the reply itself */
    memcpy(text, REPLY, sizeof REPLY);
    memcpy(text + 29, value, sizeof value);
    memcpy(records, REPLY_RECORDS, sizeof records);
    records[22] = sizeof value;
    CHECK(wrote(clp_write_reply(records, sizeof records, text, 33, lend(), sizeof room), REPLY, 56));
    /* raw ones are quoted once more */
    memcpy(written, REPLY, 29);
    memcpy(written + 29, again, sizeof again);
    memcpy(written + 29 + sizeof again, REPLY + 36, 20);
    CHECK(29 + sizeof again + 20 == 62);
    CHECK(wrote(clp_write_reply(REPLY_RECORDS, sizeof REPLY_RECORDS, TEXT(REPLY), lend(), sizeof room), written, 62));
}

/* Whether a reply has these records, and whether it is refused so, with any room and with none, and nothing changed. */
static int has(const uint8_t *reply, size_t n, const void *records, size_t records_len)
{
    return wrote(clp_read_reply(reply, n, lend(), sizeof room), records, records_len);
}

static int reply_refused(const uint8_t *reply, size_t n, uint64_t number, uint64_t place)
{
    return is(clp_read_reply(reply, n, lend(), sizeof room), number, place) && unchanged() && is(clp_read_reply(reply, n, lend(), 0), number, place) &&
           unchanged();
}

#define OPENED "begingroup=g\n"
#define EIGHT OPENED OPENED OPENED OPENED OPENED OPENED OPENED OPENED
#define CLOSED "endgroup\nendgroup\nendgroup\nendgroup\nendgroup\nendgroup\nendgroup\nendgroup\n"
#define NAME_64 "abcdefghijklmnopqrstuvwxyz_ABCDEFGHIJKLMNOPQRSTUVWXYZ_0123456789"
#define ITEM(keyword, value) 0x40, 0, keyword, 0, 1, 0, value

static void replies_read(void)
{
    static const uint8_t end[] = {0x43}, item[] = {ITEM(0, 2), 0, 3, 0x43}, empty[] = {ITEM(0, 2), 0, 0, 0x43};
    static const uint8_t longest[] = {0x40, 0, 0, 0, 64, 0, 65, 0, 0, 0x43};
    static const uint8_t word[] = {0x40, 0, 0, 0, 8, 0, 9, 0, 1, 0x43}, reserved[] = {0x41, 0, 11, 0, 8, 0x42, 0x43}, lines[] = {ITEM(0, 2), 0, 15, 0x43};
    clp_answer a;
    /* ends of line; what means nothing; what is not read */
    CHECK(has(TEXT("endoutput"), end, 1) && has(TEXT("endoutput\r"), end, 1) && has(TEXT("endoutput\nno line"), end, 1));
    CHECK(has(TEXT("\r\n\n\rendoutput"), end, 1) && has(TEXT("# a=\"\n#\nendoutput\r\n"), end, 1));
    CHECK(has(TEXT("a=b c\rendoutput"), item, sizeof item) && has(TEXT("a=b c\r\nendoutput\r\n"), item, sizeof item));
    /* values */
    CHECK(has(TEXT("a=\nendoutput"), empty, sizeof empty) && has(TEXT("a=b\"c\nendoutput"), item, sizeof item));
    CHECK(has(TEXT("a=`\"`\nendoutput"), item, sizeof item) && has(TEXT("a=#=b\nendoutput"), item, sizeof item));
    CHECK(has(TEXT("a=\"b\"\nendoutput"), item, sizeof item) && has(TEXT("a=\"\n#\nendoutput\n\"\nendoutput"), lines, sizeof lines));
    CHECK(has(TEXT("a=\0\377\001\nendoutput"), item, sizeof item));
    /* names, and the three words */
    CHECK(sizeof NAME_64 - 1 == 64 && has(TEXT(NAME_64 "=\nendoutput"), longest, sizeof longest));
    CHECK(has(TEXT("Endgroup=1\nendoutput"), word, sizeof word) && has(TEXT("begingroup=endgroup\nendgroup\nendoutput"), reserved, sizeof reserved));
    CHECK(reply_refused(TEXT(NAME_64 "a=\nendoutput"), CLP_REFUSED_REPLY_LINE, 0));
    CHECK(reply_refused(TEXT("ENDOUTPUT"), CLP_REFUSED_REPLY_LINE, 0) && reply_refused(TEXT("\nendoutpu"), CLP_REFUSED_REPLY_LINE, 1));
    CHECK(reply_refused(TEXT("endoutput=1"), CLP_REFUSED_REPLY_LINE, 0) && reply_refused(TEXT("a=1\nendgroup "), CLP_REFUSED_REPLY_LINE, 4));
    CHECK(reply_refused(TEXT("endgroup=\"a\nb\""), CLP_REFUSED_REPLY_LINE, 0) && reply_refused(TEXT("a=1\r\nbegingroup"), CLP_REFUSED_REPLY_LINE, 5));
    CHECK(reply_refused(TEXT("begingroup=\"g\"\nendoutput"), CLP_REFUSED_REPLY_LINE, 0));
    CHECK(reply_refused(TEXT("1=\"\nendoutput"), CLP_REFUSED_REPLY_LINE, 0));
    CHECK(reply_refused(TEXT(" \nendoutput"), CLP_REFUSED_REPLY_LINE, 0) && reply_refused(TEXT("_a=1"), CLP_REFUSED_REPLY_LINE, 0));
    /* after a closing quote: the line with the keyword */
    CHECK(reply_refused(TEXT("\na=\"\n\"b\nendoutput"), CLP_REFUSED_REPLY_LINE, 1) && reply_refused(TEXT("a=\"\" \nendoutput"), CLP_REFUSED_REPLY_LINE, 0));
    /* groups */
    CHECK(reply_refused(TEXT("a=1\nendgroup\nendoutput"), CLP_REFUSED_GROUP_END, 4) && reply_refused(TEXT("endgroup"), CLP_REFUSED_GROUP_END, 0));
    CHECK(reply_refused(TEXT(OPENED "endgroup\nendgroup"), CLP_REFUSED_GROUP_END, 22));
    a = clp_read_reply(TEXT(EIGHT CLOSED OPENED "endgroup\nendoutput"), lend(), sizeof room);
    CHECK(is(a, 0, 9 * CLP_GROUP_BYTES + 9 * CLP_END_GROUP_BYTES + CLP_END_OUTPUT_BYTES));
    CHECK(reply_refused(TEXT(EIGHT "a=1\n" OPENED), CLP_REFUSED_DEPTH, 108) && reply_refused(TEXT(EIGHT "begingroup=\n"), CLP_REFUSED_REPLY_LINE, 104));
    CHECK(reply_refused(TEXT(OPENED "\nendoutput"), CLP_REFUSED_OPEN_GROUP, 14) && reply_refused(TEXT(EIGHT "endoutput\n"), CLP_REFUSED_OPEN_GROUP, 104));
    /* the end */
    CHECK(reply_refused(TEXT(""), CLP_REFUSED_NO_END, 0) && reply_refused(TEXT("a=1\n"), CLP_REFUSED_NO_END, 4));
    CHECK(reply_refused(TEXT("a=1"), CLP_REFUSED_NO_END, 3));
    CHECK(reply_refused(TEXT("#endoutput"), CLP_REFUSED_NO_END, 10) && reply_refused(TEXT(OPENED "a=\"b`\"\nendoutput"), CLP_REFUSED_NO_END, 29));
    /* the first in the reply */
    CHECK(reply_refused(TEXT("endgroup\nno line\n"), CLP_REFUSED_GROUP_END, 0) && reply_refused(TEXT("no line\nendgroup\n"), CLP_REFUSED_REPLY_LINE, 0));
    CHECK(reply_refused(TEXT("no line\na=\""), CLP_REFUSED_REPLY_LINE, 0) && reply_refused(TEXT(OPENED "endoutput\na=\""), CLP_REFUSED_OPEN_GROUP, 13));
}

/* Whether records over a text are refused so, with any room and with none, and nothing changed. */
static int records_refused(const uint8_t *records, size_t records_len, const uint8_t *text, size_t n, uint64_t number, uint64_t place)
{
    return is(clp_write_reply(records, records_len, text, n, lend(), sizeof room), number, place) && unchanged() &&
           is(clp_write_reply(records, records_len, text, n, lend(), 0), number, place) && unchanged();
}

#define RECORDS_REFUSED(records, text, number, place) records_refused(records, sizeof records, TEXT(text), number, place)

static void replies_written(void)
{
    static const uint8_t item[] = {ITEM(0, 1), 0, 3, 0x43, 0xFF}, empty[] = {ITEM(0, 4), 0, 0, 0x43};
    static const uint8_t group[] = {0x41, 0, 0, 0, 8, ITEM(0, 1), 0, 0, 0x42, 0x43};
    static const uint8_t past[] = {0x42, ITEM(0, 5), 0, 0, 0x43}, cut[] = {ITEM(0, 1), 0, 3, 0x40, 0, 0, 0, 1, 0, 1, 0}, open[] = {0x41, 0, 0, 0, 1, 0x43};
    static const uint8_t far[] = {0x40, 0xFF, 0xFF, 0xFF, 0xFF, 0, 0, 0, 0, 0x43}, none[] = {ITEM(0, 1), 0, 3};
    static const uint8_t word[] = {0x40, 0, 0, 0, 9, 0, 0, 0, 1, 0x43};
    static const uint8_t lone[] = {0x42, 0x43}, both[] = {0x40, 0, 1, 0, 1, 0, 9, 0, 9, 0x42}, end[] = {0x43, 0x01, 0x42};
    static const uint8_t late[] = {0x40, 0, 3, 0, 2, 0, 0, 0, 0, 0x43}, type[] = {0x41, 0, 3, 0, 2, 0x42, 0x43};
    static const char *const words[] = {"begingroup", "endgroup", "endoutput"};
    uint8_t deep[9 * CLP_GROUP_BYTES], named[] = {0x40, 0, 0, 0, 0, 0, 0, 0, 1, 0x43};
    size_t i;
    CHECK(wrote(clp_write_reply(item, sizeof item, TEXT("ab c"), lend(), sizeof room), "a=b c\nendoutput\n", 16));
    CHECK(wrote(clp_write_reply(end, sizeof end, TEXT(""), lend(), sizeof room), "endoutput\n", 10));
    CHECK(wrote(clp_write_reply(empty, sizeof empty, TEXT("ab c"), lend(), sizeof room), "a=\nendoutput\n", 13));
    CHECK(wrote(clp_write_reply(group, sizeof group, TEXT("endgroup"), lend(), sizeof room), "begingroup=endgroup\ne=\nendgroup\nendoutput\n", 42));
    /* quotes: with CR, with LF and where it begins with one, and nowhere else */
    CHECK(wrote(clp_write_reply(item, sizeof item, TEXT("a`\r\""), lend(), sizeof room), "a=\"``\r`\"\"\nendoutput\n", 20));
    CHECK(wrote(clp_write_reply(item, sizeof item, TEXT("ab\nc"), lend(), sizeof room), "a=\"b\nc\"\nendoutput\n", 18));
    CHECK(wrote(clp_write_reply(item, sizeof item, TEXT("a\"bc"), lend(), sizeof room), "a=\"`\"bc\"\nendoutput\n", 19));
    CHECK(wrote(clp_write_reply(item, sizeof item, TEXT("ab\"`"), lend(), sizeof room), "a=b\"`\nendoutput\n", 16));
    CHECK(wrote(clp_write_reply(item, sizeof item, TEXT("a#\0\377"), lend(), sizeof room), "a=#\0\377\nendoutput\n", 16));
    /* 21: parts past the text, of length 0 too; names; words; records that are none are below */
    CHECK(RECORDS_REFUSED(item, "ab ", CLP_REFUSED_REPLY_LINE, 0) && RECORDS_REFUSED(far, "ab c", CLP_REFUSED_REPLY_LINE, 0));
    CHECK(records_refused(past + 1, sizeof past - 1, TEXT("ab c"), CLP_REFUSED_REPLY_LINE, 0) && RECORDS_REFUSED(cut, "ab c", CLP_REFUSED_REPLY_LINE, 9));
    CHECK(RECORDS_REFUSED(item, "1b c", CLP_REFUSED_REPLY_LINE, 0) && RECORDS_REFUSED(group, "end group", CLP_REFUSED_REPLY_LINE, 0));
    for (i = 0; i < 3; i++) {
        named[4] = (uint8_t)strlen(words[i]);
        CHECK(records_refused(named, sizeof named, (const uint8_t *)words[i], strlen(words[i]), CLP_REFUSED_REPLY_LINE, 0));
    }
    /* what stands past the text is not looked at: one byte more of it, and each is good */
    CHECK(records_refused(late, sizeof late, (const uint8_t *)"ab cd", 4, CLP_REFUSED_REPLY_LINE, 0));
    CHECK(wrote(clp_write_reply(late, sizeof late, TEXT("ab cd"), lend(), sizeof room), "cd=\nendoutput\n", 14));
    CHECK(records_refused(type, sizeof type, (const uint8_t *)"ab cd", 4, CLP_REFUSED_REPLY_LINE, 0));
    CHECK(wrote(clp_write_reply(type, sizeof type, TEXT("ab cd"), lend(), sizeof room), "begingroup=cd\nendgroup\nendoutput\n", 33));
    CHECK(wrote(clp_write_reply(word, sizeof word, TEXT("endOutput"), lend(), sizeof room), "endOutput=e\nendoutput\n", 22));
    /* 22 to 25, and the first in the records */
    CHECK(RECORDS_REFUSED(lone, "", CLP_REFUSED_GROUP_END, 0) && RECORDS_REFUSED(past, "ab c", CLP_REFUSED_GROUP_END, 0));
    CHECK(RECORDS_REFUSED(both, "ab", CLP_REFUSED_REPLY_LINE, 0) && RECORDS_REFUSED(open, "g", CLP_REFUSED_OPEN_GROUP, 5));
    CHECK(RECORDS_REFUSED(none, "ab c", CLP_REFUSED_NO_END, 9) && records_refused(end, 0, TEXT("ab c"), CLP_REFUSED_NO_END, 0));
    for (i = 0; i < 9; i++)
        memcpy(deep + i * CLP_GROUP_BYTES, open, CLP_GROUP_BYTES);
    CHECK(RECORDS_REFUSED(deep, "g", CLP_REFUSED_DEPTH, 8 * CLP_GROUP_BYTES));
    CHECK(records_refused(deep, 8 * CLP_GROUP_BYTES, TEXT("g"), CLP_REFUSED_NO_END, 8 * CLP_GROUP_BYTES));
    deep[sizeof deep - 1] = 0; /* a type that is no name comes first */
    CHECK(RECORDS_REFUSED(deep, "g", CLP_REFUSED_REPLY_LINE, 8 * CLP_GROUP_BYTES));
}

/* Each kind of record, whole and cut, after a good one. */
static void reply_records(void)
{
    uint8_t records[2 * CLP_ITEM_BYTES] = {ITEM(0, 1), 0, 3};
    unsigned kind;
    size_t cut;
    for (kind = 0; kind < 256; kind++) {
        size_t whole = kind == CLP_KIND_ITEM         ? CLP_ITEM_BYTES
                       : kind == CLP_KIND_GROUP      ? CLP_GROUP_BYTES
                       : kind == CLP_KIND_END_GROUP  ? CLP_END_GROUP_BYTES
                       : kind == CLP_KIND_END_OUTPUT ? CLP_END_OUTPUT_BYTES
                                                     : 0;
        memcpy(records + CLP_ITEM_BYTES, records, CLP_ITEM_BYTES);
        records[CLP_ITEM_BYTES] = (uint8_t)kind;
        for (cut = 1; cut <= CLP_ITEM_BYTES; cut++) {
            size_t n = CLP_ITEM_BYTES + cut;
            if (kind == CLP_KIND_END_OUTPUT)
                CHECK(wrote(clp_write_reply(records, n, TEXT("ab c"), lend(), sizeof room), "a=b c\nendoutput\n", 16));
            else if (kind == CLP_KIND_END_GROUP)
                CHECK(records_refused(records, n, TEXT("ab c"), CLP_REFUSED_GROUP_END, CLP_ITEM_BYTES));
            else if (whole == 0 || cut < whole)
                CHECK(records_refused(records, n, TEXT("ab c"), CLP_REFUSED_REPLY_LINE, CLP_ITEM_BYTES));
            else if (cut == whole)
                CHECK(records_refused(records, n, TEXT("ab c"), CLP_REFUSED_NO_END, n));
        }
    }
    /* a line's records, and a tree's, are none of a reply */
    CHECK(records_refused(RECORDS, sizeof RECORDS, TEXT("ab c"), CLP_REFUSED_REPLY_LINE, 0));
    CHECK(records_refused(TREE, sizeof TREE, TEXT("ab c"), CLP_REFUSED_REPLY_LINE, 0));
}

/* The values of which nothing is escaped, and those that are quoted. */
static void reply_values(void)
{
    static uint8_t raw[2 * CLP_REPLY_BYTES], value[2 * CLP_REPLY_BYTES];
    CHECK(wrote(clp_reply_value(TEXT("a`\"`` b\r\n"), lend(), sizeof room), "a`\"`` b\r\n", 9));
    CHECK(wrote(clp_reply_value(TEXT("\"a``b`\"c`d`\n\""), lend(), sizeof room), "a`b\"c`d`\n", 9));
    CHECK(is(clp_reply_value(TEXT("\"\""), lend(), 0), 0, 0) && unchanged());
    CHECK(is(clp_reply_value(TEXT("\""), lend(), sizeof room), CLP_REFUSED_REPLY_LINE, 0) && unchanged());
    CHECK(is(clp_reply_value(TEXT("\"a`\""), lend(), sizeof room), CLP_REFUSED_REPLY_LINE, 0) && unchanged());
    CHECK(is(clp_reply_value(TEXT("\"a\"b"), lend(), 0), CLP_REFUSED_REPLY_LINE, 0) && unchanged());
    CHECK(is(clp_reply_value(TEXT("\"a\"\n"), lend(), 0), CLP_REFUSED_REPLY_LINE, 0) && unchanged());
    CHECK(is(clp_reply_value(TEXT("\"a`\"\""), lend(), 1), CLP_REFUSED_ROOM, 0) && unchanged());
    CHECK(wrote(clp_reply_value(TEXT("\"a`\"\""), lend(), 2), "a\"", 2));
    CHECK(is(clp_reply_value(TEXT("ab"), lend(), 1), CLP_REFUSED_ROOM, 0) && unchanged());
    CHECK(wrote(clp_reply_value(TEXT("ab"), lend(), 2), "ab", 2));
    /* longer than a reply */
    memset(raw, '`', sizeof raw);
    raw[0] = raw[sizeof raw - 1] = '"';
    CHECK(is(clp_reply_value(raw, sizeof raw, value, CLP_REPLY_BYTES - 2), CLP_REFUSED_ROOM, 0) && value[0] == 0);
    CHECK(is(clp_reply_value(raw, sizeof raw, value, CLP_REPLY_BYTES - 1), 0, CLP_REPLY_BYTES - 1));
    CHECK(value[0] == '`' && value[CLP_REPLY_BYTES - 2] == '`' && value[CLP_REPLY_BYTES - 1] == 0);
}

/* The most of each size, and one more or less. */
static void reply_sizes(void)
{
    static uint8_t reply[CLP_REPLY_BYTES + 1], text[CLP_REPLY_BYTES + 1], records[CLP_REPLY_RECORDS_BYTES + 1], same[CLP_REPLY_RECORDS_BYTES + 1];
    uint8_t item[CLP_ITEM_BYTES + 1] = {ITEM(0, 0), 0, 0, 0x43};
    const size_t value = CLP_REPLY_BYTES - 13; /* a=, LF, endoutput, LF */
    size_t n = most_reply_records(reply), i;
    CHECK(n == CLP_REPLY_BYTES && 3 * n - 26 == CLP_REPLY_RECORDS_BYTES);
    memset(records, 0xA5, sizeof records);
    memcpy(same, records, sizeof same);
    CHECK(is(clp_read_reply(reply, n, records, CLP_REPLY_RECORDS_BYTES - 1), CLP_REFUSED_ROOM, 0) && memcmp(records, same, sizeof same) == 0);
    CHECK(is(clp_read_reply(reply, n, records, CLP_REPLY_RECORDS_BYTES), 0, CLP_REPLY_RECORDS_BYTES) && records[CLP_REPLY_RECORDS_BYTES] == 0xA5);
    for (i = 0; i < (CLP_REPLY_BYTES - 9) / 3; i++) {
        const uint8_t *r = records + i * CLP_ITEM_BYTES;
        CHECK(r[0] == CLP_KIND_ITEM && CLP_FIELD(r + 1) == 3 * i && CLP_FIELD(r + 3) == 1 && CLP_FIELD(r + 5) == 3 * i + 2 && CLP_FIELD(r + 7) == 0);
    }
    CHECK(records[CLP_REPLY_RECORDS_BYTES - 1] == CLP_KIND_END_OUTPUT);
    /* one more: what is not read counts, and the length comes before all else */
    memset(reply, '\n', sizeof reply);
    add(reply, 0, "endoutput");
    CHECK(is(clp_read_reply(reply, CLP_REPLY_BYTES, records, 1), 0, 1) && reply_refused(reply, CLP_REPLY_BYTES + 1, CLP_REFUSED_REPLY_LINE, 0));
    add(reply, 0, "endgroup\n");
    CHECK(reply_refused(reply, CLP_REPLY_BYTES, CLP_REFUSED_GROUP_END, 0) && reply_refused(reply, CLP_REPLY_BYTES + 1, CLP_REFUSED_REPLY_LINE, 0));

    /* the longest reply that is written, and one byte more, which comes before 19 */
    memset(text, 'a', sizeof text);
    item[7] = (uint8_t)(value >> 8);
    item[8] = (uint8_t)value;
    memset(reply, 0xA5, sizeof reply);
    memcpy(same, reply, sizeof reply);
    CHECK(is(clp_write_reply(item, sizeof item, text, value, reply, CLP_REPLY_BYTES - 1), CLP_REFUSED_ROOM, 0) && memcmp(reply, same, sizeof reply) == 0);
    CHECK(is(clp_write_reply(item, sizeof item, text, CLP_REPLY_BYTES, reply, CLP_REPLY_BYTES), 0, CLP_REPLY_BYTES) && reply[CLP_REPLY_BYTES] == 0xA5);
    CHECK(memcmp(reply, "a=a", 3) == 0 && memcmp(reply + 2, text, value) == 0 && memcmp(reply + 2 + value, "\nendoutput\n", 11) == 0);
    CHECK(is(clp_read_reply(reply, CLP_REPLY_BYTES, records, CLP_ITEM_BYTES + 1), 0, CLP_ITEM_BYTES + 1) && CLP_FIELD(records + 7) == value);
    item[8]++;
    CHECK(records_refused(item, sizeof item, text, CLP_REPLY_BYTES, CLP_REFUSED_REPLY_LINE, 0));
    memcpy(reply, same, sizeof reply);
    CHECK(is(clp_write_reply(item, sizeof item, text, CLP_REPLY_BYTES, reply, sizeof reply), CLP_REFUSED_REPLY_LINE, 0));
    CHECK(memcmp(reply, same, sizeof reply) == 0);
    /* without its end it is 25 */
    CHECK(records_refused(item, CLP_ITEM_BYTES, text, CLP_REPLY_BYTES, CLP_REFUSED_NO_END, CLP_ITEM_BYTES));
    /* a text that is too long comes before all else */
    item[0] = CLP_KIND_END_GROUP;
    CHECK(records_refused(item, sizeof item, text, CLP_REPLY_BYTES, CLP_REFUSED_GROUP_END, 0));
    CHECK(records_refused(item, sizeof item, text, CLP_REPLY_BYTES + 1, CLP_REFUSED_REPLY_LINE, 0));
    CHECK(records_refused(item, 0, text, CLP_REPLY_BYTES, CLP_REFUSED_NO_END, 0));
    CHECK(records_refused(item, 0, text, CLP_REPLY_BYTES + 1, CLP_REFUSED_REPLY_LINE, 0));
    /* a place past 65,535 */
    memset(records, 0, sizeof records);
    for (i = 0; i < 10000; i++) {
        records[i * CLP_ITEM_BYTES] = CLP_KIND_ITEM;
        records[i * CLP_ITEM_BYTES + 4] = 1;
    }
    CHECK(records_refused(records, 90010, TEXT("a"), CLP_REFUSED_REPLY_LINE, 90000));
    CHECK(records_refused(records, 90000, TEXT("a"), CLP_REFUSED_NO_END, 90000));
    records[90000] = CLP_KIND_END_OUTPUT;
    CHECK(is(clp_write_reply(records, 90001, TEXT("a"), reply, 30009), CLP_REFUSED_ROOM, 0));
    CHECK(is(clp_write_reply(records, 90001, TEXT("a"), reply, 30010), 0, 30010));
    CHECK(is(clp_read_reply(TEXT(REPLY), lend(), sizeof REPLY_RECORDS - 1), CLP_REFUSED_ROOM, 0) && unchanged());
    CHECK(wrote(clp_read_reply(TEXT(REPLY), lend(), sizeof REPLY_RECORDS), REPLY_RECORDS, sizeof REPLY_RECORDS));
}

/* ---- null where the length is 0: the answer of any other empty slice */

static void nulls(void)
{
    uint8_t *none = 0;
    uint8_t buffer[CLP_LINE_BYTES] = {0};
    CHECK(is_joined(clp_join(0, none, 0, TEXT("a\n")), CLP_REFUSED_ROOM, 0, 0, 0));
    CHECK(is_joined(clp_join(3, buffer, sizeof buffer, none, 0), 0, CLP_NONE, 0, 3));
    CHECK(is_joined(clp_join(0, none, 0, none, 0), CLP_REFUSED_ROOM, 0, 0, 0));
    CHECK(is(clp_read(none, 0, lend(), sizeof room), 0, CLP_BLANK_BYTES) && room[0] == CLP_KIND_BLANK);
    CHECK(is(clp_read(none, 0, none, 0), CLP_REFUSED_ROOM, 0));
    CHECK(is(clp_read(TEXT("show"), none, 0), CLP_REFUSED_ROOM, 0));
    CHECK(is(clp_read(TEXT("nosuch"), none, 0), CLP_REFUSED_VERB, 0));
    CHECK(clp_target(none, 0).position == 0 && clp_target(none, 0).length == 0);
    CHECK(clp_next_term(none, 0, 0).value == CLP_NONE && clp_next_term(none, 0, 5).value == CLP_NONE);
    CHECK(is(clp_canonical(none, 0, none, 0), 0, 0));
    CHECK(is(clp_canonical(TEXT("show"), none, 0), CLP_REFUSED_ROOM, 0));
    CHECK(is(clp_check_tree(none, 0), 0, 0));
    CHECK(is(clp_resolve(none, 0, TREE, sizeof TREE, 2, (uint16_t *)(void *)none, 0), CLP_REFUSED_ROOM, 0));
    CHECK(is(clp_resolve(none, 0, none, 0, 0, (uint16_t *)(void *)none, 0), CLP_REFUSED_ROOM, 0));
    CHECK(is(clp_resolve(none, 0, none, 0, 1, (uint16_t *)(void *)none, 0), CLP_REFUSED_NODE, 0));
    CHECK(is(clp_resolve(TEXT("SESSION"), none, 0, 0, (uint16_t *)(void *)none, 0), 0, CLP_SESSION));
    CHECK(is(clp_full_path(none, 0, 0, lend(), sizeof room), 0, 1));
    CHECK(is(clp_full_path(none, 0, 0, none, 0), CLP_REFUSED_ROOM, 0));
    CHECK(is(clp_full_path(TREE, sizeof TREE, 2, none, 0), CLP_REFUSED_ROOM, 0));
    CHECK(is_joined(clp_list(0, none, 0, none, 0, none, 0), CLP_REFUSED_ROOM, 0, 0, 0));
    CHECK(is_joined(clp_list(0, buffer, sizeof buffer, none, 0, lend(), sizeof room), 0, CLP_NONE, 0, 0) && unchanged());
    CHECK(is(clp_list_end(0, none, 0), 0, 0) && is(clp_list_end(1, none, 0), CLP_REFUSED_ROOM, 0));
    CHECK(is(clp_records_text(none, 0, none, 0), 0, 0));
    CHECK(is(clp_records_text(RECORDS, sizeof RECORDS, none, 0), CLP_REFUSED_ROOM, 0));
    CHECK(is(clp_read_reply(none, 0, lend(), sizeof room), CLP_REFUSED_NO_END, 0) && unchanged());
    CHECK(is(clp_read_reply(none, 0, none, 0), CLP_REFUSED_NO_END, 0));
    CHECK(is(clp_read_reply(TEXT("endoutput"), none, 0), CLP_REFUSED_ROOM, 0) && is(clp_read_reply(TEXT("a"), none, 0), CLP_REFUSED_REPLY_LINE, 0));
    CHECK(is(clp_write_reply(none, 0, none, 0, none, 0), CLP_REFUSED_NO_END, 0));
    CHECK(is(clp_write_reply(none, 0, TEXT("a"), lend(), sizeof room), CLP_REFUSED_NO_END, 0));
    CHECK(is(clp_write_reply(TEXT("\103"), none, 0, none, 0), CLP_REFUSED_ROOM, 0));
    CHECK(is(clp_write_reply(TEXT("\102"), none, 0, none, 0), CLP_REFUSED_GROUP_END, 0));
    CHECK(wrote(clp_write_reply(TEXT("\103"), none, 0, lend(), sizeof room), "endoutput\n", 10));
    CHECK(is(clp_write_reply(TEXT("\101\0\0\0\0"), none, 0, lend(), sizeof room), CLP_REFUSED_REPLY_LINE, 0) && unchanged());
    CHECK(is(clp_reply_value(none, 0, none, 0), 0, 0) && is(clp_reply_value(none, 0, lend(), sizeof room), 0, 0) && unchanged());
    CHECK(is(clp_reply_value(TEXT("a"), none, 0), CLP_REFUSED_ROOM, 0) && is(clp_reply_value(TEXT("\"\""), none, 0), 0, 0));
    CHECK(is(clp_reply_value(TEXT("\""), none, 0), CLP_REFUSED_REPLY_LINE, 0));
}

int main(void)
{
    worked_records();
    either_case();
    not_for_verb();
    places();
    worked_tree();
    numbers();
    states();
    sizes();
    nineteens();
    bad_records();
    worked_reply();
    replies_read();
    replies_written();
    reply_records();
    reply_values();
    reply_sizes();
    nulls();
    puts("face: as the header says");
    return 0;
}
