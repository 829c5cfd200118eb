/* The inputs that need the most room, built by hand, and the trees and replies that the tests lend. */
#ifndef WORST_H
#define WORST_H

#include <string.h>
#include "clp.h"

/* Adds a text at a place of a line, and tells where it ends. */
static size_t add(uint8_t *line, size_t at, const char *text)
{
    memcpy(line + at, text, strlen(text));
    return at + strlen(text);
}

/* The most bytes that a line's records and its writing come to. The header's rooms have a little more: no verb has every option. */
enum {
    MOST_RECORDS = CLP_VERB_BYTES + 10 * CLP_OPTION_BYTES + CLP_TARGET_BYTES + CLP_LINE_PROPERTIES * CLP_PROPERTY_BYTES,
    MOST_WRITTEN = 1976 /* tests/reader/tests/longest.rs finds it */
};

/* A line whose records take MOST_RECORDS: the ten options that show has, a target, 32 properties. */
static size_t most_records(uint8_t *line)
{
    size_t at = add(line, 0, "show -a -d a -x -f -h -k 1 -l 1 -o a -v -w .");
    int i;
    for (i = 0; i < CLP_LINE_PROPERTIES; i++)
        at = add(line, at, " abcdefghij==klmnopqrstuvw");
    return at;
}

/* An item of display or output: a list of 16 items `x, each of which grows from two bytes to five. */
static size_t add_list(uint8_t *line, size_t at)
{
    int i;
    at = add(line, at, "a=(`x");
    for (i = 1; i < 16; i++)
        at = add(line, at, ",`x");
    return add(line, at, ")");
}

/* A line of CLP_LINE_BYTES whose writing has MOST_WRITTEN: options with short names, and lists of 16 items; what is left is a list whose items grow by
 * three bytes, two and two. */
static size_t most_written(uint8_t *line)
{
    int i;
    size_t at = add_list(line, add(line, 0, "show -x -v -f -h -w -o "));
    at = add(line, at, " -d a=(`x,:,:)");
    for (i = 0; i < 18; i++)
        at = add_list(line, add(line, at, ","));
    return at;
}

/* A node's record. */
static void put_node(uint8_t *record, unsigned parent, const char *tag, unsigned number)
{
    memset(record, 0, CLP_NODE_BYTES);
    record[0] = CLP_KIND_NODE;
    record[1] = (uint8_t)(parent >> 8);
    record[2] = (uint8_t)parent;
    record[3] = (uint8_t)strlen(tag);
    memcpy(record + 4, tag, strlen(tag));
    record[20] = (uint8_t)(number >> 8);
    record[21] = (uint8_t)number;
}

/* A chain of nodes, each the child of the one before, with the longest tag and number. */
static void chain(uint8_t *tree, unsigned nodes)
{
    unsigned i;
    for (i = 0; i < nodes; i++)
        put_node(tree + i * CLP_NODE_BYTES, i, "abcdefghijklmnop", 65535);
}

/* So many children of the root with one tag. */
static void fan(uint8_t *tree, unsigned nodes)
{
    unsigned i;
    for (i = 0; i < nodes; i++)
        put_node(tree + i * CLP_NODE_BYTES, 0, "a", i + 1);
}

/* A reply of CLP_REPLY_BYTES whose records take CLP_REPLY_RECORDS_BYTES: items without a value, in three bytes each. */
static size_t most_reply_records(uint8_t *reply)
{
    size_t at = 0;
    while (at < CLP_REPLY_BYTES - 9)
        at = add(reply, at, "a=\n");
    return add(reply, at, "endoutput");
}

#endif
