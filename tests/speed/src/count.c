// A plug-in of the emulator qemu-user: counts the instructions that a program executes and prints, when it ends,
// 'instructions: N' on standard error. With the argument profile=on it prints the counts by function first.
// The emulator's own header is in no Debian package, so what is used of it is declared here (its version 1).
#include <inttypes.h>
#include <stdio.h>
#include <string.h>

#define EXPORT __attribute__((visibility("default")))
#define MOST_NAMES 4096

struct qemu_plugin_tb;
struct qemu_plugin_insn;
extern void qemu_plugin_register_vcpu_tb_trans_cb(uint64_t id, void (*call)(uint64_t, struct qemu_plugin_tb *));
extern void qemu_plugin_register_vcpu_tb_exec_cb(struct qemu_plugin_tb *, void (*call)(unsigned, void *), int, void *);
extern void qemu_plugin_register_atexit_cb(uint64_t id, void (*call)(uint64_t, void *), void *);
extern size_t qemu_plugin_tb_n_insns(const struct qemu_plugin_tb *);
extern struct qemu_plugin_insn *qemu_plugin_tb_get_insn(const struct qemu_plugin_tb *, size_t);
extern const char *qemu_plugin_insn_symbol(const struct qemu_plugin_insn *);

EXPORT int qemu_plugin_version = 1;

static struct { const char *name; uint64_t count; } functions[MOST_NAMES];
static size_t known = 1; // the first is for what has no name, as the shared libraries have none
static uint64_t total;
static int profile;

static size_t place_of(const char *name) {
    size_t at = 1;
    while (name && at < known && strcmp(functions[at].name, name) != 0) at++;
    if (!name || at == MOST_NAMES) return 0;
    if (at == known) functions[known++].name = name;
    return at;
}

static void executed(unsigned processor, void *instructions) {
    (void)processor;
    total += (uintptr_t)instructions;
}

// the block's function and its length in one number
static void executed_in(unsigned processor, void *block) {
    (void)processor;
    functions[(uintptr_t)block / 65536].count += (uintptr_t)block % 65536;
    total += (uintptr_t)block % 65536;
}

static void translated(uint64_t id, struct qemu_plugin_tb *block) {
    (void)id;
    uintptr_t length = qemu_plugin_tb_n_insns(block);
    if (profile) length += 65536 * place_of(qemu_plugin_insn_symbol(qemu_plugin_tb_get_insn(block, 0)));
    qemu_plugin_register_vcpu_tb_exec_cb(block, profile ? executed_in : executed, 0, (void *)length);
}

static void ended(uint64_t id, void *nothing) {
    (void)id;
    (void)nothing;
    functions[0].name = "(shared libraries)";
    for (size_t at = 0; profile && at < known; at++)
        if (functions[at].count) fprintf(stderr, "%" PRIu64 " %s\n", functions[at].count, functions[at].name);
    fprintf(stderr, "instructions: %" PRIu64 "\n", total);
}

EXPORT int qemu_plugin_install(uint64_t id, const void *information, int count, char **arguments) {
    (void)information;
    for (int at = 0; at < count; at++) profile |= strcmp(arguments[at], "profile=on") == 0;
    qemu_plugin_register_vcpu_tb_trans_cb(id, translated);
    qemu_plugin_register_atexit_cb(id, ended, NULL);
    return 0;
}
