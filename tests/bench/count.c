/* A plugin of qemu-user (Debian 12's): counts the
 * instructions that an emulated program executes. The
 * program marks where a measurement begins and ends by a
 * system call, sched_yield. At each end the number is said
 * on standard error, a line for each measurement. */
#include <inttypes.h>
#include <stddef.h>
#include <stdio.h>

/* The part of qemu's plugin interface, version 1, that is
 * used here; Debian has no package of its header. */
struct qemu_plugin_tb;
typedef void block_translated(uint64_t id, struct qemu_plugin_tb *block);
typedef void system_called(
    uint64_t id, unsigned processor, int64_t number, uint64_t a, uint64_t b, uint64_t c, uint64_t d, uint64_t e,
    uint64_t f, uint64_t g, uint64_t h);
size_t qemu_plugin_tb_n_insns(const struct qemu_plugin_tb *block);
void qemu_plugin_register_vcpu_tb_trans_cb(uint64_t id, block_translated *call);
void qemu_plugin_register_vcpu_tb_exec_inline(
    struct qemu_plugin_tb *block, int operation, void *number, uint64_t given);
void qemu_plugin_register_vcpu_syscall_cb(uint64_t id, system_called *call);

int qemu_plugin_version = 1;

/* The interface's number for adding to a number, and the
 * number of sched_yield on x86-64. */
enum { ADD = 0, MARK = 24 };

static uint64_t executed;
static int measuring;

static void watch_block(uint64_t id, struct qemu_plugin_tb *block)
{
    (void)id;
    qemu_plugin_register_vcpu_tb_exec_inline(block, ADD, &executed, qemu_plugin_tb_n_insns(block));
}

static void mark(
    uint64_t id, unsigned processor, int64_t number, uint64_t a, uint64_t b, uint64_t c, uint64_t d, uint64_t e,
    uint64_t f, uint64_t g, uint64_t h)
{
    (void)id, (void)processor, (void)a, (void)b, (void)c, (void)d, (void)e, (void)f, (void)g, (void)h;
    if (number != MARK)
        return;
    if (measuring)
        fprintf(stderr, "%" PRIu64 "\n", executed);
    measuring = !measuring;
    executed = 0;
}

int qemu_plugin_install(uint64_t id, const void *about, int count, char **words)
{
    (void)about, (void)count, (void)words;
    qemu_plugin_register_vcpu_tb_trans_cb(id, watch_block);
    qemu_plugin_register_vcpu_syscall_cb(id, mark);
    return 0;
}
