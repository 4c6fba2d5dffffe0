/* A plugin of QEMU's user mode that counts the x86-64 instructions a program executes between its marks: one line a pair of marks, so that a figure
   is the same on every machine. Options: out=FILE says where the lines go, profile=on adds what each function executed, over all pairs.
   The marks are system calls that Linux does not have. A repeated string instruction counts once a step: a processor counts fewer, never more. */
#include <stdbool.h>
#include <stddef.h>
#include <stdint.h>
#include <stdio.h>
#include <stdlib.h>
#include <string.h>
#include "marks.h"

/* ---- the plugin interface, version 1, as QEMU documents it; Debian's qemu-user has no header ---- */
#define EXPORT __attribute__((visibility("default")))

typedef uint64_t plugin;
typedef struct {
    const char *target_name;
    struct { int least, current; } version;
    bool system_emulation;
    struct { int processors, most_processors; } system;
} plugin_target;
struct qemu_plugin_tb;
struct qemu_plugin_insn;
enum operation { ADD_U64 };
typedef void on_translation(plugin id, struct qemu_plugin_tb *block);
typedef void on_system_call(plugin id, unsigned cpu, int64_t number, uint64_t a, uint64_t b, uint64_t c, uint64_t d, uint64_t e, uint64_t f, uint64_t g, uint64_t h);
typedef void on_exit_of_guest(plugin id, void *data);

void qemu_plugin_register_vcpu_tb_trans_cb(plugin id, on_translation *called);
void qemu_plugin_register_vcpu_syscall_cb(plugin id, on_system_call *called);
void qemu_plugin_register_atexit_cb(plugin id, on_exit_of_guest *called, void *data);
void qemu_plugin_register_vcpu_insn_exec_inline(struct qemu_plugin_insn *instruction, enum operation operation, void *number, uint64_t amount);
size_t qemu_plugin_tb_n_insns(const struct qemu_plugin_tb *block);
struct qemu_plugin_insn *qemu_plugin_tb_get_insn(const struct qemu_plugin_tb *block, size_t index);
const char *qemu_plugin_insn_symbol(const struct qemu_plugin_insn *instruction);

EXPORT int qemu_plugin_version = 1;

/* ---- counting ---- */
struct function {
    char *name;
    uint64_t executed, at_opening, between_marks;
    struct function *next;
};

static FILE *out;
static bool profile;
static uint64_t executed, at_opening;
static struct function *functions;

static struct function *function_of(const char *name) {
    struct function *f;
    if (name == NULL) name = "(no symbol)";
    for (f = functions; f != NULL; f = f->next)
        if (strcmp(f->name, name) == 0) return f;
    f = calloc(1, sizeof *f);
    f->name = strdup(name);
    f->next = functions;
    return functions = f;
}

static void translated(plugin id, struct qemu_plugin_tb *block) {
    size_t count = qemu_plugin_tb_n_insns(block);
    (void)id;
    for (size_t i = 0; i < count; i++) {
        struct qemu_plugin_insn *instruction = qemu_plugin_tb_get_insn(block, i);
        qemu_plugin_register_vcpu_insn_exec_inline(instruction, ADD_U64, &executed, 1);
        if (profile)
            qemu_plugin_register_vcpu_insn_exec_inline(instruction, ADD_U64, &function_of(qemu_plugin_insn_symbol(instruction))->executed, 1);
    }
}

static void called(plugin id, unsigned cpu, int64_t number, uint64_t a, uint64_t b, uint64_t c, uint64_t d, uint64_t e, uint64_t f, uint64_t g, uint64_t h) {
    (void)id, (void)cpu, (void)a, (void)b, (void)c, (void)d, (void)e, (void)f, (void)g, (void)h;
    if (number == OPENING_MARK) {
        for (struct function *each = functions; each != NULL; each = each->next) each->at_opening = each->executed;
        at_opening = executed;
    }
    if (number == CLOSING_MARK) {
        fprintf(out, "%llu\n", (unsigned long long)(executed - at_opening));
        for (struct function *each = functions; each != NULL; each = each->next) each->between_marks += each->executed - each->at_opening;
    }
}

static void ended(plugin id, void *data) {
    (void)id, (void)data;
    for (struct function *f = functions; f != NULL; f = f->next)
        if (f->between_marks > 0) fprintf(out, "%llu %s\n", (unsigned long long)f->between_marks, f->name);
    fclose(out);
}

EXPORT int qemu_plugin_install(plugin id, const plugin_target *target, int count, char **options) {
    if (strcmp(target->target_name, "x86_64") != 0) return 1;
    out = stderr;
    for (int i = 0; i < count; i++) {
        if (strncmp(options[i], "out=", 4) == 0) out = fopen(options[i] + 4, "w");
        if (strcmp(options[i], "profile=on") == 0) profile = true;
    }
    if (out == NULL) return 1;
    qemu_plugin_register_vcpu_tb_trans_cb(id, translated);
    qemu_plugin_register_vcpu_syscall_cb(id, called);
    qemu_plugin_register_atexit_cb(id, ended, NULL);
    return 0;
}
