/* How deep each function goes on the stack: each is called on inputs that take it far, on a stack that was painted before, and what was changed there
 * is counted. The numbers are held under those of include/clp.h. Measured, so not for every input; tests/c/frames adds up the frames. */
#include <string.h>
#include "check.h"
#include "clp.h"
#include "worst.h"

enum { STACK = 1 << 20, PAINT = 0xA5 };

static uint8_t line[CLP_LINE_BYTES + 8], records[CLP_READING_BYTES], room[CLP_PATH_BYTES], buffer[CLP_LINE_BYTES];
static uint8_t tree[CLP_TREE_NODES * CLP_NODE_BYTES], part[CLP_LINE_BYTES + 8];
static uint16_t list[CLP_TREE_NODES];
static uint8_t reply[CLP_REPLY_BYTES], reply_records[CLP_REPLY_RECORDS_BYTES], written[CLP_REPLY_BYTES];
static size_t reply_len, reply_records_len;
static size_t line_len, part_len, records_len;
static uint64_t sum; /* of answers, so that no call is left out */

static void join(void) { sum += clp_join(0, buffer, sizeof buffer, part, part_len).value; }
static void end(void) { sum += clp_end(5).value; }
static void read_line(void) { sum += clp_read(line, line_len, records, sizeof records).value; }
static void target(void) { sum += clp_target(line, line_len).length; }
static void next_term(void) { sum += clp_next_term(line, line_len, 20).value; }
static void canonical(void) { sum += clp_canonical(line, line_len, room, sizeof room).value; }
static void meant(void) { sum += clp_meant(line, line_len, room, sizeof room).value; }
static void check_tree(void) { sum += clp_check_tree(tree, sizeof tree).value; }
static void resolve(void) { sum += clp_resolve((const uint8_t *)"/a1/../a512/./../a2", 19, tree, sizeof tree, 0, list, CLP_TREE_NODES).value; }
static void resolve_star(void) { sum += clp_resolve((const uint8_t *)"/a*", 3, tree, sizeof tree, 0, list, CLP_TREE_NODES).value; }
static void full_path(void) { sum += clp_full_path(tree, sizeof tree, CLP_TREE_NODES, room, sizeof room).value; }
static void list_line(void) { sum += clp_list(0, buffer, sizeof buffer, part, part_len, records, sizeof records).value; }
static void list_end(void) { sum += clp_list_end(5, records, sizeof records).value; }
static void records_text(void) { sum += clp_records_text(records, records_len, room, sizeof room).value; }
static void read_reply(void) { sum += clp_read_reply(reply, reply_len, reply_records, sizeof reply_records).value; }
static void write_reply(void) { sum += clp_write_reply(reply_records, reply_records_len, reply, reply_len, written, sizeof written).value; }
static void reply_value(void) { sum += clp_reply_value((const uint8_t *)"\"a``b`\"\n`c\"", 11, room, sizeof room).value; }

/* How many bytes of a painted stack a call of the function changes; its wrapper above, some 50 bytes, is counted with it. */
static size_t depth(void (*function)(void))
{
    static uint8_t stack[STACK] __attribute__((aligned(16)));
    size_t untouched = 0;
    memset(stack, PAINT, STACK);
#ifdef __aarch64__
    __asm__ volatile("mov x19, sp\n\tmov sp, %0\n\tblr %1\n\tmov sp, x19"
                     :
                     : "r"(stack + STACK), "r"(function)
                     : "x0", "x1", "x2", "x3", "x4", "x5", "x6", "x7", "x8", "x9", "x10", "x11", "x12", "x13", "x14", "x15", "x16", "x17", "x19", "x30",
                       "memory", "cc", "v0", "v1", "v2", "v3", "v4", "v5", "v6", "v7", "v8", "v9", "v10", "v11", "v12", "v13", "v14", "v15", "v16", "v17",
                       "v18", "v19", "v20", "v21", "v22", "v23", "v24", "v25", "v26", "v27", "v28", "v29", "v30", "v31");
#else
    __asm__ volatile("mov %%rsp, %%rbx\n\tmov %0, %%rsp\n\tcall *%1\n\tmov %%rbx, %%rsp"
                     :
                     : "r"(stack + STACK), "r"(function)
                     : "rax", "rbx", "rcx", "rdx", "rsi", "rdi", "r8", "r9", "r10", "r11", "memory", "cc", "xmm0", "xmm1", "xmm2", "xmm3", "xmm4",
                       "xmm5", "xmm6", "xmm7", "xmm8", "xmm9", "xmm10", "xmm11", "xmm12", "xmm13", "xmm14", "xmm15");
#endif
    while (untouched < STACK && stack[untouched] == PAINT)
        untouched++;
    return STACK - untouched;
}

static void show(const char *name, void (*function)(void), size_t most)
{
    size_t deep = depth(function);
    printf("stack: %-16s %6u bytes\n", name, (unsigned)deep);
    CHECK(deep <= most);
}

/* Everything that goes by a line, on one line. */
static void on_line(const char *name)
{
    printf("stack: on %s\n", name);
    CHECK(clp_read(line, line_len, records, sizeof records).number == 0);
    memcpy(part, line, line_len);
    part[line_len] = '\n';
    part_len = line_len + 1;
    show("clp_join", join, CLP_STACK_BYTES);
    show("clp_read", read_line, CLP_STACK_BYTES);
    show("clp_target", target, CLP_STACK_BYTES);
    show("clp_next_term", next_term, CLP_STACK_BYTES);
    show("clp_canonical", canonical, CLP_STACK_BYTES);
    show("clp_meant", meant, CLP_STACK_BYTES);
    show("clp_list", list_line, CLP_STACK_BYTES);
    records_len = (size_t)clp_read(line, line_len, records, sizeof records).value;
    show("clp_records_text", records_text, CLP_STACK_BYTES);
}

/* Everything that goes by a reply, on one reply. */
static void on_reply(const char *name)
{
    printf("stack: on %s\n", name);
    show("clp_read_reply", read_reply, CLP_STACK_BYTES);
    reply_records_len = (size_t)clp_read_reply(reply, reply_len, reply_records, sizeof reply_records).value;
    CHECK(reply_records_len > 0);
    show("clp_write_reply", write_reply, CLP_STACK_BYTES);
}

int main(void)
{
    int i;
    show("clp_end", end, CLP_STACK_BYTES);
    show("clp_list_end", list_end, CLP_STACK_BYTES);
    line_len = most_records(line);
    on_line("the line with the most records");
    line_len = most_written(line);
    on_line("the line with the longest writing");
    line_len = add(line, 0, "load -source `-a` b\\c -output a,d=(e,\"f g\") -keep 4294967295 /a1/../b* a=\"x y\" b==(c,\"d\") c");
    on_line("a line with every form");
    fan(tree, CLP_TREE_NODES);
    printf("stack: on trees of %d nodes\n", CLP_TREE_NODES);
    show("clp_check_tree", check_tree, CLP_STACK_BYTES);
    show("clp_resolve", resolve_star, CLP_STACK_BYTES);
    show("clp_resolve", resolve, CLP_STACK_BYTES);
    chain(tree, CLP_TREE_NODES);
    show("clp_full_path", full_path, CLP_STACK_PATH_BYTES);
    for (i = 0; i < CLP_REPLY_GROUPS; i++)
        reply_len = add(reply, reply_len, "#\r\nbegingroup=g\r\na=\"b`\"\nc``d\"\r\n");
    for (i = 0; i < CLP_REPLY_GROUPS; i++)
        reply_len = add(reply, reply_len, "b=`c\nendgroup\n");
    reply_len = add(reply, reply_len, "endoutput");
    on_reply("a reply with every form, groups in groups");
    reply_len = most_reply_records(reply);
    on_reply("the reply with the most records");
    show("clp_reply_value", reply_value, CLP_STACK_BYTES);
    return sum == 0;
}
