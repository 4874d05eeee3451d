/* A plugin for qemu's user emulation that counts the instructions a program executes, and prints their number when
 * it ends. It needs no header of qemu's: what it uses of the plugin interface, version 1, is declared here.
 * docs/PERFORMANCE.md says how it is built and used. */
#include <stdint.h>
#include <stdio.h>

typedef uint64_t plugin_id;
struct block;

int qemu_plugin_version = 1;

void qemu_plugin_register_vcpu_tb_trans_cb(plugin_id id, void (*translated)(plugin_id, struct block *));
void qemu_plugin_register_vcpu_tb_exec_inline(struct block *block, int operation, void *number, uint64_t added);
void qemu_plugin_register_atexit_cb(plugin_id id, void (*ended)(plugin_id, void *), void *with);
size_t qemu_plugin_tb_n_insns(const struct block *block);

enum { ADD = 0 };
static uint64_t executed;

static void translated(plugin_id id, struct block *block) {
    (void)id;
    qemu_plugin_register_vcpu_tb_exec_inline(block, ADD, &executed, qemu_plugin_tb_n_insns(block));
}

static void ended(plugin_id id, void *with) {
    (void)id;
    (void)with;
    fprintf(stderr, "%llu\n", (unsigned long long)executed);
}

int qemu_plugin_install(plugin_id id, const void *info, int argc, char **argv) {
    (void)info;
    (void)argc;
    (void)argv;
    qemu_plugin_register_vcpu_tb_trans_cb(id, translated);
    qemu_plugin_register_atexit_cb(id, ended, 0);
    return 0;
}
