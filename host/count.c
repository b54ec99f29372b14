// A plugin of qemu-user (interface 1, as Debian 12 has it) that counts the instructions and the bytes stored between two marks.
// The marks are no-operations, so that the program runs as well without it: host/src/count.rs. Each second mark writes one line.
#include <stdbool.h>
#include <stddef.h>
#include <stdint.h>
#include <stdio.h>
#include <string.h>

// what is used of qemu-plugin.h, which no package has
struct qemu_plugin_tb;
struct qemu_plugin_insn;
void qemu_plugin_register_vcpu_tb_trans_cb(uint64_t id, void (*translated)(uint64_t id, struct qemu_plugin_tb *tb));
size_t qemu_plugin_tb_n_insns(const struct qemu_plugin_tb *tb);
struct qemu_plugin_insn *qemu_plugin_tb_get_insn(const struct qemu_plugin_tb *tb, size_t at);
const void *qemu_plugin_insn_data(const struct qemu_plugin_insn *insn);
size_t qemu_plugin_insn_size(const struct qemu_plugin_insn *insn);
void qemu_plugin_register_vcpu_insn_exec_inline(struct qemu_plugin_insn *insn, int add, void *to, uint64_t number);
void qemu_plugin_register_vcpu_insn_exec_cb(struct qemu_plugin_insn *insn, void (*run)(unsigned cpu, void *data), int registers,
                                            void *data);
void qemu_plugin_register_vcpu_mem_cb(struct qemu_plugin_insn *insn,
                                      void (*accessed)(unsigned cpu, uint32_t info, uint64_t address, void *data),
                                      int registers, int kind, void *data);
unsigned qemu_plugin_mem_size_shift(uint32_t info);
bool qemu_plugin_mem_is_store(uint32_t info);
enum { ADD_U64 = 0, NO_REGISTERS = 0, STORES = 2 };

__attribute__((visibility("default"))) int qemu_plugin_version = 1;

// nop dword ptr [rax + 0x42554C00], and + 0x42554C01
static const uint8_t BEGIN[7] = {0x0F, 0x1F, 0x80, 0x00, 0x4C, 0x55, 0x42};
static const uint8_t END[7] = {0x0F, 0x1F, 0x80, 0x01, 0x4C, 0x55, 0x42};

static FILE *out;
static uint64_t instructions, stored;

static void begin(unsigned cpu, void *data) {
    instructions = stored = 0;
}

static void end(unsigned cpu, void *data) {
    fprintf(out, "%llu %llu\n", (unsigned long long)instructions, (unsigned long long)stored);
    fflush(out);
}

static void store(unsigned cpu, uint32_t info, uint64_t address, void *data) {
    // qemu 7.2 tells of loads too, whichever kind is asked for
    if (qemu_plugin_mem_is_store(info)) {
        stored += 1u << qemu_plugin_mem_size_shift(info);
    }
}

static bool is(const struct qemu_plugin_insn *insn, const uint8_t mark[7]) {
    return qemu_plugin_insn_size(insn) == 7 && memcmp(qemu_plugin_insn_data(insn), mark, 7) == 0;
}

static void translated(uint64_t id, struct qemu_plugin_tb *tb) {
    for (size_t at = 0; at < qemu_plugin_tb_n_insns(tb); at++) {
        struct qemu_plugin_insn *insn = qemu_plugin_tb_get_insn(tb, at);
        if (is(insn, BEGIN)) {
            qemu_plugin_register_vcpu_insn_exec_cb(insn, begin, NO_REGISTERS, NULL);
        } else if (is(insn, END)) {
            qemu_plugin_register_vcpu_insn_exec_cb(insn, end, NO_REGISTERS, NULL);
        } else {
            qemu_plugin_register_vcpu_insn_exec_inline(insn, ADD_U64, &instructions, 1);
            qemu_plugin_register_vcpu_mem_cb(insn, store, NO_REGISTERS, STORES, NULL);
        }
    }
}

// qemu-x86_64 -plugin libcount.so,out=FILE PROGRAM
__attribute__((visibility("default"))) int qemu_plugin_install(uint64_t id, const void *info, int argc, char **argv) {
    if (argc != 1 || strncmp(argv[0], "out=", 4) != 0 || !(out = fopen(argv[0] + 4, "w"))) {
        return -1;
    }
    qemu_plugin_register_vcpu_tb_trans_cb(id, translated);
    return 0;
}
