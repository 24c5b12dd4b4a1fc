/* A plugin for qemu-user: adds up the instructions that the emulated program executes, and ends standard error with the sum.
   It is loaded with `-plugin`. The five functions of qemu's that it needs are declared here, so no header of qemu's is.

   Each instruction counts itself. To add up `qemu_plugin_tb_n_insns` of each block that is executed would be faster, but that
   number is one too large where a block ends because its next instruction crosses into another page, so a count would depend
   on where the code lies. */
#include <inttypes.h>
#include <stddef.h>
#include <stdio.h>

typedef uint64_t plugin_id;
struct block;
struct instruction;

enum { ADD_TO_U64 = 0 };

extern size_t qemu_plugin_tb_n_insns(const struct block *);
extern struct instruction *qemu_plugin_tb_get_insn(const struct block *, size_t);
extern void qemu_plugin_register_vcpu_insn_exec_inline(struct instruction *, int, void *, uint64_t);
extern void qemu_plugin_register_vcpu_tb_trans_cb(plugin_id, void (*)(plugin_id, struct block *));
extern void qemu_plugin_register_atexit_cb(plugin_id, void (*)(plugin_id, void *), void *);

int qemu_plugin_version = 1;

static uint64_t executed;

static void block_translated(plugin_id id, struct block *block) {
    (void)id;
    for (size_t i = 0; i < qemu_plugin_tb_n_insns(block); i++)
        qemu_plugin_register_vcpu_insn_exec_inline(qemu_plugin_tb_get_insn(block, i), ADD_TO_U64, &executed, 1);
}

static void program_ended(plugin_id id, void *nothing) {
    (void)id, (void)nothing;
    fprintf(stderr, "\n%" PRIu64 "\n", executed);
}

int qemu_plugin_install(plugin_id id, const void *machine, int count, char **arguments) {
    (void)machine, (void)count, (void)arguments;
    qemu_plugin_register_vcpu_tb_trans_cb(id, block_translated);
    qemu_plugin_register_atexit_cb(id, program_ended, NULL);
    return 0;
}
