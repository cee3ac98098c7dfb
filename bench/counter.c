/* A plugin for QEMU's user emulators: counts the instructions that a program executes, function by function, and prints
   the counts on standard error when the program exits. They are right for a program of one thread, like the benchmark.
   An instruction that repeats itself (rep movs, rep stos) counts once for every turn.
   QEMU's header for plugins is not in the emulator's package, so what is used of it is declared here: version 1. */
#include <inttypes.h>
#include <stddef.h>
#include <stdio.h>
#include <string.h>

typedef uint64_t qemu_plugin_id_t;
struct qemu_info_t;      /* about the emulated machine */
struct qemu_plugin_tb;   /* a run of instructions that QEMU translates as one */
struct qemu_plugin_insn; /* one of its instructions */
enum qemu_plugin_op { QEMU_PLUGIN_INLINE_ADD_U64 = 0 };

size_t qemu_plugin_tb_n_insns(const struct qemu_plugin_tb *tb);
struct qemu_plugin_insn *qemu_plugin_tb_get_insn(const struct qemu_plugin_tb *tb, size_t index);
const char *qemu_plugin_insn_symbol(const struct qemu_plugin_insn *insn); /* the function that it is in, or NULL */
void qemu_plugin_register_vcpu_tb_trans_cb(qemu_plugin_id_t id,
                                           void (*translated)(qemu_plugin_id_t, struct qemu_plugin_tb *));
void qemu_plugin_register_vcpu_insn_exec_inline(struct qemu_plugin_insn *insn, enum qemu_plugin_op op, void *at,
                                                uint64_t number);
void qemu_plugin_register_atexit_cb(qemu_plugin_id_t id, void (*ended)(qemu_plugin_id_t, void *), void *what);

int qemu_plugin_install(qemu_plugin_id_t id, const struct qemu_info_t *info, int argc, char **argv);
int qemu_plugin_version = 1;

/* The functions that were met, in that order. If there are more than fit, the rest is counted with the last one. */
enum { MOST_FUNCTIONS = 4096 };
static struct {
    const char *name;
    uint64_t executed;
} functions[MOST_FUNCTIONS];
static size_t met;

/* The count of the function that an instruction is in. */
static uint64_t *count_of(const struct qemu_plugin_insn *insn)
{
    const char *name = qemu_plugin_insn_symbol(insn);
    size_t f = 0;
    if (name == NULL)
        name = "?";
    while (f < met && strcmp(functions[f].name, name) != 0)
        f++;
    if (f == MOST_FUNCTIONS)
        return &functions[MOST_FUNCTIONS - 1].executed;
    if (f == met)
        functions[met++].name = name;
    return &functions[f].executed;
}

/* Has a count raised by 1 each time an instruction of the run is executed. To add the run's length at once would give
   too much: QEMU 7.2 counts an instruction that crosses the end of a page both to the run before it and to its own. */
static void count_each(qemu_plugin_id_t id, struct qemu_plugin_tb *tb)
{
    (void)id;
    for (size_t i = 0; i < qemu_plugin_tb_n_insns(tb); i++) {
        struct qemu_plugin_insn *insn = qemu_plugin_tb_get_insn(tb, i);
        qemu_plugin_register_vcpu_insn_exec_inline(insn, QEMU_PLUGIN_INLINE_ADD_U64, count_of(insn), 1);
    }
}

static void print_counts(qemu_plugin_id_t id, void *what)
{
    (void)id, (void)what;
    for (size_t f = 0; f < met; f++)
        fprintf(stderr, "executed %" PRIu64 " %s\n", functions[f].executed, functions[f].name);
}

int qemu_plugin_install(qemu_plugin_id_t id, const struct qemu_info_t *info, int argc, char **argv)
{
    (void)info, (void)argc, (void)argv;
    qemu_plugin_register_vcpu_tb_trans_cb(id, count_each);
    qemu_plugin_register_atexit_cb(id, print_counts, NULL);
    return 0;
}
