/* clp.h: the SM CLP decode option, for C and C++. (bindings/ has the same for Rust and for Python.)
 *
 * The library is libsmclp: packaging/library makes it, packaging/install puts it and this header (as smclp/clp.h) in their places. It is there for x86-64
 * (ELF, the System V calling convention, no instructions beyond SSE2) and for Arm (aarch64). It is written in Rattle and proved: for every input each
 * function below ends, touches no memory but what is lent to it and its own stack, and gives exactly the answer that is described here (what is proved is
 * the source; the compiler behind it is not). From outside it needs memcpy and memset, as C has them, and nothing else. It allocates nothing and keeps
 * nothing between calls: what goes on from one call to the next, the joiner's state and the line buffer, is the caller's. So several threads may call it at
 * once, each with memory of its own.
 *
 * One convention for all answers. A function answers with a clp_answer, or with a struct that begins like one:
 *     number == 0   the call succeeded, and value is what the function's description says;
 *     number != 0   the call is refused; number is the refusal's number (the CLP_REFUSED_ names below) and value is its place, an index into the
 *                   text, tree or records that were lent. It may be their length, past the last byte: look at the length before you look at the byte.
 *                   On a refusal no lent memory has changed (the joiner's line buffer apart, where a line was too long).
 * The one exception is clp_target: its clp_part is a position and a length and no clp_answer, and it refuses nothing.
 * Functions that write fill the start of the lent room and leave its rest as it was. Nothing is told through a pointer, so a refusal leaves nothing
 * half told. A function that writes is refused as CLP_REFUSED_ROOM where its room is too small; "Sizes" below has the room that is always enough.
 *
 * What the caller owes. A slice is lent as a pointer and a length, in elements. Where the length is 0 the pointer may be null, or point anywhere:
 * nothing is read or written through it. Otherwise it points to so many elements, in memory that nothing else writes during the call. Two lent slices
 * must not overlap where one of them is written. A list of 16-bit numbers is aligned as C asks. The stack has the room that "Stack" below says. That is
 * all.
 */
#ifndef CLP_H
#define CLP_H

#include <stddef.h>
#include <stdint.h>

#ifdef __cplusplus
extern "C" {
#endif

typedef struct {
    uint64_t number; /* 0, or the number of the refusal */
    uint64_t value;  /* the answer, or the place of the refusal */
} clp_answer;

typedef struct {
    uint64_t number;
    uint64_t value;
    uint64_t used;  /* how many bytes of the part were used */
    uint64_t state; /* the joiner's state, for the next call */
} clp_joined;

typedef struct {
    uint64_t number;
    uint64_t value;
    uint64_t length; /* of the term that begins at value */
} clp_term;

/* No clp_answer: it has no number. */
typedef struct {
    uint64_t position;
    uint64_t length;
} clp_part;

/* ---- Sizes: the most that there is of each, and the room that is enough for every input */

enum {
    CLP_LINE_BYTES = 1024,      /* a line has at most so many bytes, and the line buffer has exactly so many */
    CLP_LINE_TERMS = 64,        /* a line has at most so many terms */
    CLP_LINE_PROPERTIES = 32,   /* and so many properties */
    CLP_READING_BYTES = 399,    /* clp_read, clp_list: a line's records (proved; the most that a line comes to is 387, tested) */
    CLP_CANONICAL_BYTES = 1978, /* clp_canonical: a line's writing (the most is 1,976, by reasoning over the rules, docs/DECISIONS.md; tested) */
    CLP_TEXT_BYTES = 2394,      /* clp_records_text: the text of one line's records: 6 for each byte that they can have (proved) */
    CLP_TREE_NODES = 512,       /* a tree has at most so many nodes beside the root; clp_resolve: so many numbers */
    CLP_NODE_BYTES = 22,        /* a node's record in a tree */
    CLP_PATH_BYTES = 11264      /* clp_full_path: CLP_TREE_NODES segments of '/', 16 letters and 5 digits (tested: such a tree reaches it) */
};

/* Of replies. */
enum {
    CLP_REPLY_BYTES = 65535,          /* a reply has at most so many bytes, and so has a text that one is written from; clp_write_reply: what it writes */
    CLP_REPLY_RECORDS_BYTES = 196579, /* clp_read_reply: a reply's records (proved; tested: a reply reaches it) */
    CLP_REPLY_GROUPS = 8              /* so many groups are open at once */
};

/* ---- Stack: how deep a call goes at most, its return address and the 128 bytes below the stack pointer included; memcpy and memset are not in it. Three
 * functions call themselves: clp_resolve from segment to segment of a target, of which there are at most 16, clp_full_path from node to parent, a
 * frame for each node on the way, and clp_read_reply from a group to those in it, of which CLP_REPLY_GROUPS are open at once: it does not matter how many
 * items a reply has. docs/SPEED.md has the numbers of each function, and how they were measured. */

enum {
    CLP_STACK_BYTES = 8192,      /* every function but clp_full_path */
    CLP_STACK_PATH_BYTES = 65536 /* clp_full_path, on a chain of CLP_TREE_NODES nodes */
};

/* ---- Refusals, with their places */

enum {
    CLP_REFUSED_LONG_LINE = 1,      /* line over 1,024 bytes: 1,024 */
    CLP_REFUSED_BYTE = 2,           /* a byte outside 20h to 7Eh: the first such */
    CLP_REFUSED_GRAVE = 3,          /* the last byte is a backtick that escapes nothing: its index */
    CLP_REFUSED_QUOTE = 4,          /* the line ends in a quote: the opening quote */
    CLP_REFUSED_TERMS = 5,          /* over 64 terms: start of the 65th */
    CLP_REFUSED_VERB = 6,           /* no such verb: start of the term */
    CLP_REFUSED_OPTION = 7,         /* no such option: start of the term; one that the verb can't have is 20 */
    CLP_REFUSED_OPTION_TWICE = 8,   /* option already given, by either name: start of the term */
    CLP_REFUSED_NO_ARGUMENT = 9,    /* argument missing, or its term starts with a bare -: that term, or the line's length */
    CLP_REFUSED_ARGUMENT = 10,      /* argument not of its form: the first byte that can't stay, see below */
    CLP_REFUSED_LATE_OPTION = 11,   /* a bare - starts a term after the options' end: start of the term */
    CLP_REFUSED_TARGET = 12,        /* target not of its form: likewise */
    CLP_REFUSED_PROPERTY = 13,      /* property not of its form: likewise */
    CLP_REFUSED_PROPERTIES = 14,    /* over 32 properties: start of the 33rd */
    CLP_REFUSED_TREE = 15,          /* tree or records malformed: start of the first bad record */
    CLP_REFUSED_NODE = 16,          /* the default target, or the node asked for, is no node: 0 */
    CLP_REFUSED_ABOVE_ROOT = 17,    /* .. at the root: start of the segment */
    CLP_REFUSED_CHILD = 18,         /* no such child: start of the segment */
    CLP_REFUSED_ROOM = 19,          /* lent room too small, or a bad state or line buffer in joining: 0 */
    CLP_REFUSED_NOT_FOR_VERB = 20,  /* an option that this verb can't have (CLP_OPTION_ below): start of the term; it comes after 7, before 8 */
    CLP_REFUSED_REPLY_LINE = 21,    /* a reply's line of no form, or a bad record of one: start of the line or record; a reply or text too long: 0 */
    CLP_REFUSED_GROUP_END = 22,     /* endgroup without an open group: start of the line or record */
    CLP_REFUSED_DEPTH = 23,         /* a group in CLP_REPLY_GROUPS open ones: likewise */
    CLP_REFUSED_OPEN_GROUP = 24,    /* endoutput in an open group: likewise */
    CLP_REFUSED_NO_END = 25         /* a reply, or records of one, without endoutput; a quote that is not closed: their length */
};

/* The place of 10, 12 and 13. The bytes of the term before it are the beginning of some good argument of that option, some good target or some good
 * property (with help, a topic), and with the byte at the place they are the beginning of none: that is the byte to point at. Where the whole term could
 * go on to a good one, more is wanted, and the place is the term's end, which may be the line's length. Where not even its first byte can stay, it is the
 * term's start. Limits count: the digit that makes a number too large can't stay, nor the 65th byte of a name, the 17th letter of a tag, or the separator
 * or comma after the 16th segment or item. For example
 *     show -level 02      10 at 13: after 0 a number is complete, so the 2 can't stay
 *     cd /system1/        12 at 12, the line's length: a segment is wanted after the last separator
 *     set a=b=c           13 at 7: a=b is good, and could go on, but not with =
 * and clp_list writes the last of these as 05 0D 00 07. */

/* Which function can give which:
 *     clp_join          1, 19 (a bad state, or a buffer that is not of CLP_LINE_BYTES)
 *     clp_end           19 (a bad state)
 *     clp_read          1 to 14 and 20, then 19 (the records do not fit)
 *     clp_target        none
 *     clp_next_term     1 to 5
 *     clp_canonical     1 to 14 and 20, then 19 (the writing does not fit)
 *     clp_meant         19 (the bytes do not fit)
 *     clp_check_tree    15
 *     clp_resolve       12, 15, 16, 17, 18, then 19 (the numbers do not fit)
 *     clp_full_path     15, 16, then 19 (the path does not fit)
 *     clp_list          19 (as clp_join, or a room below CLP_READING_BYTES)
 *     clp_list_end      19 (a bad state; or a line is cut and the room has no byte)
 *     clp_records_text  15, then 19 (the text does not fit)
 *     clp_read_reply    21 to 25, then 19 (the records do not fit)
 *     clp_write_reply   21 to 25, then 19 (the reply does not fit)
 *     clp_reply_value   21, then 19 (the bytes do not fit) */

/* Values that are no length. */
#define CLP_NONE UINT64_MAX    /* clp_join, clp_list: no line has ended yet; clp_next_term: there is no term */
#define CLP_SESSION UINT64_MAX /* clp_resolve: the target is SESSION */

/* ---- Records of a reading
 *
 * What clp_read and clp_list write, and clp_records_text reads. A record is one byte of kind and a body whose length the kind fixes. A number or an
 * operator is one byte; a position, a length or a place is two, high byte first, and counts bytes of the line from 0.
 *
 *     kind        bytes  body: u8 is one byte, u16 is two
 *     1 verb          2  u8 verb
 *     2 option        6  u8 option, u16 argument position, u16 argument length
 *     3 target        5  u16 position, u16 length
 *     4 property     10  u16 name position, u16 name length, u8 operator, u16 value position, u16 value length
 *     5 refusal       4  u8 number, u16 place
 *     6 blank         1
 *     7 cut           1
 *
 * An argument or a value that is absent has length 0 and the position after its term. Parts are as the line has them, quotes, parentheses and
 * backticks included. Records stand in the order of the line: the verb; the options; the target, if there is one; the properties. The topics of help
 * are properties without an operator. A line without terms is one blank. Refusal and cut are made by clp_list and clp_list_end alone.
 *
 * The verb, option names and the word all as level's argument may have letters of either case: SHOW -L ALL is show -level all, and its argument is told
 * as the three bytes ALL, so who looks for all compares in either case. A tag, SESSION, a name and a value are told by their bytes alone.
 *
 * For example the line  show -level 2 /system1/cpu* Name  has these 23 bytes of records:
 *     01 0A                            verb 10, show
 *     02 08 00 0C 00 01                option 8, level; its argument is the byte at 12
 *     03 00 0E 00 0D                   the target is the 13 bytes at 14
 *     04 00 1C 00 04 00 00 20 00 00    a property: its name is the 4 bytes at 28; operator 0; no value, so length 0 at 32
 * and  reset "os1  is refused as 4 at 6, which clp_list writes as 05 04 00 06.
 *
 * The verb's own place, and those of the options: the verb is the line's first term, and an option's own term is the next one after the verb, after an
 * option without an argument, or after an argument. clp_next_term gives them in turn; examples/mark.c does so to mark a line. */

enum {
    CLP_KIND_VERB = 1,
    CLP_KIND_OPTION = 2,
    CLP_KIND_TARGET = 3,
    CLP_KIND_PROPERTY = 4,
    CLP_KIND_REFUSAL = 5,
    CLP_KIND_BLANK = 6,
    CLP_KIND_CUT = 7,
    CLP_KIND_NODE = 16, /* in a tree */
    CLP_KIND_ITEM = 64, /* this and the next three: of a reply, see "Replies" below */
    CLP_KIND_GROUP = 65,
    CLP_KIND_END_GROUP = 66,
    CLP_KIND_END_OUTPUT = 67
};

/* How many bytes a record has, its kind included; a node's has CLP_NODE_BYTES. */
enum {
    CLP_VERB_BYTES = 2,
    CLP_OPTION_BYTES = 6,
    CLP_TARGET_BYTES = 5,
    CLP_PROPERTY_BYTES = 10,
    CLP_REFUSAL_BYTES = 4,
    CLP_BLANK_BYTES = 1,
    CLP_CUT_BYTES = 1,
    CLP_ITEM_BYTES = 9,
    CLP_GROUP_BYTES = 5,
    CLP_END_GROUP_BYTES = 1,
    CLP_END_OUTPUT_BYTES = 1
};

/* The number in the two bytes at a place of a record. */
#define CLP_FIELD(bytes) ((bytes)[0] * 256u + (bytes)[1])

enum {
    CLP_VERB_CD = 1,
    CLP_VERB_CREATE = 2,
    CLP_VERB_DELETE = 3,
    CLP_VERB_DUMP = 4,
    CLP_VERB_EXIT = 5,
    CLP_VERB_HELP = 6,
    CLP_VERB_LOAD = 7,
    CLP_VERB_RESET = 8,
    CLP_VERB_SET = 9,
    CLP_VERB_SHOW = 10,
    CLP_VERB_START = 11,
    CLP_VERB_STOP = 12,
    CLP_VERB_VERSION = 13
};

/* Each is given at most once in a line, by its long or its short name, in either case, and only with the verbs that can have it (Table 15 of DSP0214):
 * with another verb it is CLP_REFUSED_NOT_FOR_VERB. */
enum {
    CLP_OPTION_ALL = 1,         /* -all, -a: show */
    CLP_OPTION_DESTINATION = 2, /* -destination, with an argument: dump */
    CLP_OPTION_DISPLAY = 3,     /* -display, -d, with an argument: show */
    CLP_OPTION_EXAMINE = 4,     /* -examine, -x: every verb */
    CLP_OPTION_FORCE = 5,       /* -force, -f: delete, dump, load, reset, set, show, start, stop */
    CLP_OPTION_HELP = 6,        /* -help, -h: every verb */
    CLP_OPTION_KEEP = 7,        /* -keep, -k, with an argument: every verb */
    CLP_OPTION_LEVEL = 8,       /* -level, -l, with an argument: show */
    CLP_OPTION_OUTPUT = 9,      /* -output, -o, with an argument: every verb */
    CLP_OPTION_SOURCE = 10,     /* -source, with an argument: load */
    CLP_OPTION_VERSION = 11,    /* -version, -v: every verb */
    CLP_OPTION_WAIT = 12        /* -wait, -w: every verb but exit */
};

enum {
    CLP_OPERATOR_NONE = 0,  /* a mere name */
    CLP_OPERATOR_SET = 1,   /* name=value */
    CLP_OPERATOR_EQUALS = 2 /* name==value */
};

/* ---- From bytes to lines
 *
 * The joiner's state is one number that the caller keeps; 0 before the first byte of a capture. The line buffer is kept from call to call too: the
 * bytes held stand at its start, and nobody else may change them. The number can be looked at; a state that no capture leads to is refused. */

enum {
    CLP_STATE_HELD = 2047,  /* state & CLP_STATE_HELD: how many bytes of the line the buffer holds, 0 to CLP_LINE_BYTES */
    CLP_STATE_GRAVE = 2048, /* the last byte used was a backtick that waits for the next byte, and is not held yet */
    CLP_STATE_CR = 4096,    /* the last byte used was a CR: a LF that comes next is dropped */
    CLP_STATE_LONG = 8192   /* the line is too long; the buffer holds its first CLP_LINE_BYTES */
};

/* Joins a part of a capture: uses its bytes up to and including the one that ends a line, or all of them, and tells how many. The value is the length
 * of the line that now stands at the buffer's start, or CLP_NONE. A line that is too long is CLP_REFUSED_LONG_LINE at its end: its bytes are used, and
 * the joiner goes on with the next line. A buffer of another length than CLP_LINE_BYTES, or a state that no capture leads to, is CLP_REFUSED_ROOM, with
 * nothing used, and state and buffer as they were. Of a CR LF the CR ends the line, and the LF is used by the next call. A line's bytes are not always
 * neighbours in the capture, for a backtick before an end of line joins two lines: examples/places.h notes where each byte came from. */
clp_joined clp_join(uint64_t state, uint8_t *buffer, size_t buffer_len, const uint8_t *part, size_t part_len);

/* The end of a capture: value 1 where it cuts a line, 0 where nothing was open. */
clp_answer clp_end(uint64_t state);

/* ---- Reading a line */

/* Writes a line's records (kinds 1 to 4, or 6 for a blank line); the value is how many bytes, at most CLP_READING_BYTES. */
clp_answer clp_read(const uint8_t *line, size_t line_len, uint8_t *room, size_t room_len);

/* The target's own part of a line: its position and length. Both are 0 where there is none or the line is refused. */
clp_part clp_target(const uint8_t *line, size_t line_len);

/* The term at or after a place: the value is where it begins, or CLP_NONE with length 0. Go on from the term's end. On a line that refusals 1 to 5 hold
 * of, that refusal, from every place. Each call judges the whole line anew. */
clp_term clp_next_term(const uint8_t *line, size_t line_len, size_t place);

/* Writes a line canonically; the value is how many bytes, at most CLP_CANONICAL_BYTES. Terms parted by one space; long option names; the verb, option
 * names and level's all in lower case, all other letters as the line has them; / for \ in the target; a value or list item of letters, digits and
 * underscores plain, any other in quotes; a blank line writes nothing. A writing of over CLP_LINE_BYTES is still written, but is refused as
 * CLP_REFUSED_LONG_LINE where it is read. */
clp_answer clp_canonical(const uint8_t *line, size_t line_len, uint8_t *room, size_t room_len);

/* Writes the bytes that a text stands for, as a value, an argument or a term has it: quote marks taken out, each escaped byte for its pair; a backtick that
 * escapes nothing stays. The value is how many bytes, at most as many as the text has. Any bytes are accepted. Parentheses and commas stay: an item of a
 * list is handed in by itself. */
clp_answer clp_meant(const uint8_t *text, size_t text_len, uint8_t *room, size_t room_len);

/* ---- The tree
 *
 * Lent as records of kind CLP_KIND_NODE, CLP_NODE_BYTES each, at most CLP_TREE_NODES of them; none is a good tree too. Node 0 is the root and has no
 * record; record i, counted from 1, is node i.
 *
 *     at  bytes
 *      0      1  CLP_KIND_NODE
 *      1      2  parent's node number, high byte first: below the node's own
 *      3      1  length of the tag, 1 to 16
 *      4     16  tag: letters, then zeros
 *     20      2  number, high byte first: 1 to 65,535
 *
 * No two records have the same parent, tag and number. For example node 1 is /system1 and node 2 is /system1/cpu4 in these 44 bytes:
 *     10 00 00 06 73 79 73 74 65 6D 00 00 00 00 00 00 00 00 00 00 00 01
 *     10 00 01 03 63 70 75 00 00 00 00 00 00 00 00 00 00 00 00 00 00 04 */

/* Checks a tree: value 0 where it is good. clp_resolve and clp_full_path check it as well, each time. It is one walk over the records, on
 * which a record is compared with those before it where it resembles one: in parent, number, length of the tag and the tag's first and last letter, or by
 * chance. In a chassis of numbered parts 5 of 512 do; in a rack that letters its slots (slotAtemp1, slotBtemp1 and so on) nearly all, 122,075 pairs in one
 * of 495 records. In no tree are more than 130,816 pairs compared. docs/SPEED.md has what is counted, and times. */
clp_answer clp_check_tree(const uint8_t *tree, size_t tree_len);

/* The instances that a target's text addresses from a default target, a node number: the value is how many node numbers now stand at the list's start,
 * in record order, or CLP_SESSION, which needs no room. An empty text is the default target. The text is a target's as clp_target gives its part; any
 * other is CLP_REFUSED_TARGET, whatever the tree is, at the first byte of the text that can't stay, or at its end where more is wanted: system1/ at 8. */
clp_answer clp_resolve(const uint8_t *text, size_t text_len, const uint8_t *tree, size_t tree_len, size_t default_target, uint16_t *list, size_t list_len);

/* Writes the full path of a node; the value is how many bytes, at most CLP_PATH_BYTES. The root's is "/". The stack: CLP_STACK_PATH_BYTES. */
clp_answer clp_full_path(const uint8_t *tree, size_t tree_len, size_t node, uint8_t *room, size_t room_len);

/* ---- A lister */

/* Joins a part and reads the line that it ended: the value is how many bytes of records now stand at the room's start (a refused line as a record of
 * kind 5), or CLP_NONE. The room has at least CLP_READING_BYTES; less, and whatever clp_join refuses as CLP_REFUSED_ROOM, is CLP_REFUSED_ROOM, with
 * nothing used and nothing changed. */
clp_joined clp_list(uint64_t state, uint8_t *buffer, size_t buffer_len, const uint8_t *part, size_t part_len, uint8_t *room, size_t room_len);

/* The end of a capture as a record: the value is 1, a cut's record (kind 7), or 0, which needs no room. */
clp_answer clp_list_end(uint64_t state, uint8_t *room, size_t room_len);

/* Writes records as text, a line for each: its kind's word and its fields in decimal; the value is how many bytes, at most 6 for each byte of records.
 * Bytes that are no such records are CLP_REFUSED_TREE at the first bad one: of another kind than 1 to 7, or cut. */
clp_answer clp_records_text(const uint8_t *records, size_t records_len, uint8_t *room, size_t room_len);

/* ---- Replies
 *
 * What a board answers to a command in the keyword format (DSP0214, 5.2.4.3.2): lines of these forms, and no others.
 *
 *     keyword=value      an item. The keyword is a name: a letter, then letters, digits or underscores, 1 to 64 bytes in all; none of the words below.
 *                        The value is what follows the first =, up to the line's end: any bytes, or none. Where it begins with " it is quoted: it goes
 *                        on to the closing ", over ends of line too, and there the line must end. In it a backtick before " or before a backtick
 *                        escapes that byte; before any other it is itself.
 *     begingroup=type    opens a group, which holds items and groups. The type is a name.
 *     endgroup           closes the group that was opened last.
 *     endoutput          ends the reply. What follows is not read.
 *     #text              means nothing, and so does an empty line.
 *
 * A line ends with CR, LF or CR LF, or where the input ends; no backtick joins lines here. The three words begingroup, endgroup and endoutput are in lower
 * case: in any other they are no such words. What keywords and values mean is not judged, nor whether a keyword comes twice.
 *
 * Records of a reply: one byte of kind, then fields of two bytes, high byte first. A position counts bytes of the lent text from 0.
 *
 *     kind            bytes  body
 *     64 item             9  keyword position, keyword length, value position, value length
 *     65 group            5  type position, type length
 *     66 end group        1
 *     67 end output       1
 *
 * A value as clp_read_reply tells it is raw: as the reply has it, quotes and backticks included. A value as clp_write_reply takes it is plain: the bytes
 * that are meant. clp_reply_value makes the one of the other. So who writes anew what was read puts each value through clp_reply_value first, into a text
 * of his own, and makes records that point there; with the records of the reading and the reply itself as the text, quoted values are quoted once more.
 *
 * For example this reply, 56 bytes with a LF after each line, whose second item has a value of two lines,
 *     status=0
 *     begingroup=cpu
 *     Name="a`"
 *     b"
 *     endgroup
 *     endoutput
 * has these 25 bytes of records:
 *     40 00 00 00 06 00 07 00 01    an item: its keyword is the 6 bytes at 0, its value the byte at 7
 *     41 00 14 00 03                a group: its type is the 3 bytes at 20
 *     40 00 18 00 04 00 1D 00 07    an item: its keyword is the 4 bytes at 24, its value the 7 bytes at 29
 *     42                            the group's end
 *     43                            the reply's end
 * Of the 7 bytes clp_reply_value makes the four 61 22 0A 62. With these in place of the 7 in the text, and 00 04 for 00 07, clp_write_reply writes the same
 * 56 bytes; with the records and the reply as they stand here it writes 62, the value as 22 60 22 61 60 60 60 22 0A 62 60 22 22. examples/reply.c shows
 * a reply by its records. */

/* Reads a reply: writes its records; the value is how many bytes. Refused is what comes first in the reply: 21 a line of no such form, 22 endgroup without
 * an open group, 23 begingroup in CLP_REPLY_GROUPS open ones (where the type is no name, 21), 24 endoutput in an open group, each at the line's start;
 * where other bytes follow a closing quote, at the start of the line with the keyword. 25 is at the reply's length, where it ends before endoutput or in a
 * quoted value. A reply of over CLP_REPLY_BYTES is 21 at 0, before all of these; 19 at 0 comes last. A refusal changes nothing that is lent.
 * The room: an item's line has at least 3 bytes, a letter, = and an end of line, for the 9 of its record, a group's 13 for 5, endgroup's 9 for 1, and
 * endoutput is 9 for 1. So a reply of n bytes has at most 3 * n - 26 bytes of records, and CLP_REPLY_RECORDS_BYTES are enough for every reply. */
clp_answer clp_read_reply(const uint8_t *reply, size_t reply_len, uint8_t *room, size_t room_len);

/* Writes the reply that records name in a text, up to and with the first record of kind 67: what follows it is not looked at. Lines end with LF. A value
 * is plain; where it holds CR or LF or begins with ", and nowhere else, it is put in quotes, with a backtick before each " and each backtick in it. The
 * value of the answer is how many bytes, at most CLP_REPLY_BYTES. Reading them gives the same items, groups and ends: the same keywords and types, and by
 * clp_reply_value the same values.
 * Refused is what comes first in the records: 21 a record of another kind or cut, a part of which position plus length go past the text (of length 0 too),
 * a keyword or a type that is no name, one of the three words as a keyword; 22, 23 and 24 as in reading; each at the record's start. 25 is at the records'
 * length, where no record of kind 67 comes. A text of over CLP_REPLY_BYTES is 21 at 0, before all of these; a reply that would have more is 21 at 0, after
 * them; 19 at 0 comes last. There may be any number of records, so a place may be over CLP_REPLY_BYTES. A refusal changes nothing that is lent. */
clp_answer clp_write_reply(const uint8_t *records, size_t records_len, const uint8_t *text, size_t text_len, uint8_t *room, size_t room_len);

/* Writes the bytes that a raw value stands for: of a quoted one what is between its quotes, without the backticks that escape; any other as it is. The
 * value of the answer is how many bytes, at most as many as the raw one has. Every value that clp_read_reply tells is accepted, and there is no bound on
 * its length. One that begins with " and is not closed, or is closed before its end, is 21 at 0; 19 at 0 comes last. A refusal changes nothing that is
 * lent. */
clp_answer clp_reply_value(const uint8_t *raw, size_t raw_len, uint8_t *room, size_t room_len);

#ifdef __cplusplus
}
#endif

#endif
