/* A plugin of qemu 7: for each call of slip_measured the instructions from its first to its return, a number to a line in qemu's log.
   Debian packages no header for plugins, so what is used of it is declared here. */
#include <stdbool.h>
#include <stddef.h>
#include <stdint.h>
#include <stdio.h>
#include <stdlib.h>
#include <string.h>

struct qemu_plugin_tb;
struct qemu_plugin_insn;
enum qemu_plugin_cb_flags { QEMU_PLUGIN_CB_NO_REGS };

void qemu_plugin_register_vcpu_tb_trans_cb(uint64_t id, void (*call)(uint64_t id, struct qemu_plugin_tb *block));
void qemu_plugin_register_vcpu_insn_exec_cb(struct qemu_plugin_insn *at, void (*call)(unsigned processor, void *with),
                                            enum qemu_plugin_cb_flags flags, void *with);
size_t qemu_plugin_tb_n_insns(const struct qemu_plugin_tb *block);
struct qemu_plugin_insn *qemu_plugin_tb_get_insn(const struct qemu_plugin_tb *block, size_t index);
uint64_t qemu_plugin_insn_vaddr(const struct qemu_plugin_insn *at);
size_t qemu_plugin_insn_size(const struct qemu_plugin_insn *at);
const char *qemu_plugin_insn_symbol(const struct qemu_plugin_insn *at);
void qemu_plugin_outs(const char *text);

int qemu_plugin_version = 1;

struct instruction {
    uint64_t from, to;
    bool measured; /* of slip_measured */
};

static bool counting;
static uint64_t count;
static uint64_t behind; /* the place behind the instruction that ran last: where slip_measured begins, behind its call */
static uint64_t back;

static void runs(unsigned processor, void *with)
{
    const struct instruction *now = with;
    char line[32];
    (void)processor;
    if (counting && now->from == back) {
        counting = false;
        snprintf(line, sizeof line, "%llu\n", (unsigned long long)count);
        qemu_plugin_outs(line);
    } else if (!counting && now->measured) {
        counting = true;
        count = 0;
        back = behind;
    }
    count += counting;
    behind = now->to;
}

static void translated(uint64_t id, struct qemu_plugin_tb *block)
{
    size_t index;
    (void)id;
    for (index = 0; index < qemu_plugin_tb_n_insns(block); index++) {
        struct qemu_plugin_insn *at = qemu_plugin_tb_get_insn(block, index);
        const char *symbol = qemu_plugin_insn_symbol(at);
        struct instruction *made = malloc(sizeof *made); /* as long as the block may run */
        if (made == NULL)
            abort();
        made->from = qemu_plugin_insn_vaddr(at);
        made->to = made->from + qemu_plugin_insn_size(at);
        made->measured = symbol != NULL && strcmp(symbol, "slip_measured") == 0;
        qemu_plugin_register_vcpu_insn_exec_cb(at, runs, QEMU_PLUGIN_CB_NO_REGS, made);
    }
}

int qemu_plugin_install(uint64_t id, const void *about, int words, char **word)
{
    (void)about, (void)words, (void)word;
    qemu_plugin_register_vcpu_tb_trans_cb(id, translated);
    return 0;
}
