/* A plugin for qemu's user emulator (7.2 or newer): counts the instructions that a program executes, function by function, and
 * prints them at its end. For machines that cannot run x86-64 programs themselves, where seconds under an emulator say little.
 * The few declarations of qemu's plugin interface that it needs stand below, so that no header has to be found. */
#include <inttypes.h>
#include <stdint.h>
#include <stdio.h>
#include <stdlib.h>
#include <string.h>

typedef uint64_t qemu_plugin_id_t;
struct qemu_plugin_tb;
struct qemu_plugin_insn;
typedef struct qemu_info_t qemu_info_t;
typedef void (*tb_translated)(qemu_plugin_id_t id, struct qemu_plugin_tb *tb);
typedef void (*at_exit)(qemu_plugin_id_t id, void *data);
enum qemu_plugin_op { QEMU_PLUGIN_INLINE_ADD_U64 };

void qemu_plugin_register_vcpu_tb_trans_cb(qemu_plugin_id_t id, tb_translated callback);
void qemu_plugin_register_atexit_cb(qemu_plugin_id_t id, at_exit callback, void *data);
void qemu_plugin_register_vcpu_tb_exec_inline(struct qemu_plugin_tb *tb, enum qemu_plugin_op op, void *at, uint64_t amount);
size_t qemu_plugin_tb_n_insns(const struct qemu_plugin_tb *tb);
struct qemu_plugin_insn *qemu_plugin_tb_get_insn(const struct qemu_plugin_tb *tb, size_t place);
const char *qemu_plugin_insn_symbol(const struct qemu_plugin_insn *insn);

int qemu_plugin_version = 1;

enum { FUNCTIONS = 65536 };
static struct { char *name; uint64_t executed; } functions[FUNCTIONS];
static size_t known;

/* The counter of a function; the last place takes all that find no room. */
static uint64_t *counter_of(const char *name)
{
    size_t i = 0;
    while (i < known && strcmp(functions[i].name, name) != 0)
        i++;
    if (i == known && known < FUNCTIONS - 1) {
        functions[i].name = strdup(name);
        known++;
    }
    return &functions[i].executed;
}

static void translated(qemu_plugin_id_t id, struct qemu_plugin_tb *tb)
{
    (void)id;
    const char *name = qemu_plugin_insn_symbol(qemu_plugin_tb_get_insn(tb, 0));
    uint64_t *counter = counter_of(name && *name ? name : "(outside the program)");
    qemu_plugin_register_vcpu_tb_exec_inline(tb, QEMU_PLUGIN_INLINE_ADD_U64, counter, qemu_plugin_tb_n_insns(tb));
}

static void ended(qemu_plugin_id_t id, void *data)
{
    (void)id;
    (void)data;
    for (size_t i = 0; i < known; i++)
        fprintf(stderr, "executed %" PRIu64 " %s\n", functions[i].executed, functions[i].name);
}

int qemu_plugin_install(qemu_plugin_id_t id, const qemu_info_t *info, int argc, char **argv)
{
    (void)info;
    (void)argc;
    (void)argv;
    qemu_plugin_register_vcpu_tb_trans_cb(id, translated);
    qemu_plugin_register_atexit_cb(id, ended, NULL);
    return 0;
}
