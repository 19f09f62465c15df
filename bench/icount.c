/* A plug-in for user-mode qemu: how many guest instructions a program executed,
 * written to standard error at its exit. The few declarations of the plug-in
 * interface that it needs are written out here, so that no header of qemu is
 * asked for. INTERFACE is the interface's version: 1, or 2 from qemu 9 on. */
#include <inttypes.h>
#include <stddef.h>
#include <stdio.h>

#ifndef INTERFACE
#define INTERFACE 1
#endif

typedef uint64_t qemu_plugin_id_t;
struct qemu_plugin_tb;

typedef void on_block(qemu_plugin_id_t id, struct qemu_plugin_tb *block);
typedef void on_run(unsigned int cpu, void *data);
typedef void on_exit_of(qemu_plugin_id_t id, void *data);

extern size_t qemu_plugin_tb_n_insns(const struct qemu_plugin_tb *block);
extern void qemu_plugin_register_vcpu_tb_trans_cb(qemu_plugin_id_t id,
                                                  on_block *call);
extern void qemu_plugin_register_vcpu_tb_exec_cb(struct qemu_plugin_tb *block,
                                                 on_run *call, int flags,
                                                 void *data);
extern void qemu_plugin_register_atexit_cb(qemu_plugin_id_t id,
                                           on_exit_of *call, void *data);

__attribute__((visibility("default"))) int qemu_plugin_version = INTERFACE;

static uint64_t count;

static void run(unsigned int cpu, void *data)
{
    (void)cpu;
    count += (uintptr_t)data;
}

static void translated(qemu_plugin_id_t id, struct qemu_plugin_tb *block)
{
    (void)id;
    qemu_plugin_register_vcpu_tb_exec_cb(
        block, run, 0, (void *)(uintptr_t)qemu_plugin_tb_n_insns(block));
}

static void ended(qemu_plugin_id_t id, void *data)
{
    (void)id;
    (void)data;
    fprintf(stderr, "instructions %" PRIu64 "\n", count);
}

__attribute__((visibility("default"))) int
qemu_plugin_install(qemu_plugin_id_t id, const void *info, int argc,
                    char **argv)
{
    (void)info;
    (void)argc;
    (void)argv;
    qemu_plugin_register_vcpu_tb_trans_cb(id, translated);
    qemu_plugin_register_atexit_cb(id, ended, NULL);
    return 0;
}
