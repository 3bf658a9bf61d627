/* A plugin for qemu-user that counts the instructions of the program it runs, and writes the number as the last line of standard error.
 * With ranges=FILE (lines `FIRST LAST NAME`, hexadecimal addresses) it also writes a line `NAME COUNT` for each range that was entered.
 * The few declarations of qemu's plugin interface that it needs stand here, since Debian's qemu-user has no header for them. */
#include <stddef.h>
#include <stdint.h>
#include <stdio.h>
#include <stdlib.h>
#include <string.h>

#ifndef PLUGIN_VERSION
#define PLUGIN_VERSION 1
#endif

typedef uint64_t id_t_;
struct qemu_plugin_tb;
struct qemu_plugin_insn;
struct qemu_info;
extern void qemu_plugin_register_vcpu_tb_trans_cb(id_t_, void (*)(id_t_, struct qemu_plugin_tb *));
extern void qemu_plugin_register_vcpu_tb_exec_cb(struct qemu_plugin_tb *, void (*)(unsigned, void *), int flags, void *);
extern void qemu_plugin_register_atexit_cb(id_t_, void (*)(id_t_, void *), void *);
extern size_t qemu_plugin_tb_n_insns(const struct qemu_plugin_tb *);
extern struct qemu_plugin_insn *qemu_plugin_tb_get_insn(const struct qemu_plugin_tb *, size_t);
extern uint64_t qemu_plugin_insn_vaddr(const struct qemu_plugin_insn *);

__attribute__((visibility("default"))) int qemu_plugin_version = PLUGIN_VERSION;

struct range {
    uint64_t first, last, count;
    char name[96];
};

/* how many of a block's instructions stand in a range */
struct block {
    struct range *range;
    uint64_t count;
    struct block *next;
};

static struct range all;
static struct range ranges[4096];
static size_t range_count;

static struct range *range_of(uint64_t at)
{
    for (size_t i = 0; i < range_count; i++)
        if (ranges[i].first <= at && at <= ranges[i].last)
            return ranges + i;
    return NULL;
}

static void on_run(unsigned cpu, void *blocks)
{
    (void)cpu;
    for (struct block *b = blocks; b; b = b->next)
        b->range->count += b->count;
}

static struct block *block_of(struct range *range, struct block *next)
{
    struct block *b = malloc(sizeof *b);
    if (!b)
        abort();
    *b = (struct block){range, 0, next};
    return b;
}

static void on_block(id_t_ id, struct qemu_plugin_tb *tb)
{
    (void)id;
    struct block *blocks = block_of(&all, NULL), *last = blocks;
    size_t n = qemu_plugin_tb_n_insns(tb);
    blocks->count = n;
    for (size_t i = 0; range_count && i < n; i++) {
        struct range *r = range_of(qemu_plugin_insn_vaddr(qemu_plugin_tb_get_insn(tb, i)));
        if (!r)
            continue;
        if (last->range != r)
            last = last->next = block_of(r, NULL);
        last->count++;
    }
    qemu_plugin_register_vcpu_tb_exec_cb(tb, on_run, 0, blocks);
}

static void at_exit(id_t_ id, void *none)
{
    (void)id, (void)none;
    for (size_t i = 0; i < range_count; i++)
        if (ranges[i].count)
            fprintf(stderr, "%s %llu\n", ranges[i].name, (unsigned long long)ranges[i].count);
    fprintf(stderr, "%llu\n", (unsigned long long)all.count);
}

static void read_ranges(const char *path)
{
    FILE *f = fopen(path, "r");
    unsigned long long first, last;
    if (!f)
        abort();
    while (range_count < sizeof ranges / sizeof *ranges && fscanf(f, "%llx %llx %95s", &first, &last, ranges[range_count].name) == 3) {
        ranges[range_count].first = first;
        ranges[range_count].last = last;
        range_count++;
    }
    fclose(f);
}

__attribute__((visibility("default"))) int qemu_plugin_install(id_t_ id, const struct qemu_info *info, int argc, char **argv)
{
    (void)info;
    for (int i = 0; i < argc; i++)
        if (!strncmp(argv[i], "ranges=", 7))
            read_ranges(argv[i] + 7);
    qemu_plugin_register_vcpu_tb_trans_cb(id, on_block);
    qemu_plugin_register_atexit_cb(id, at_exit, NULL);
    return 0;
}
