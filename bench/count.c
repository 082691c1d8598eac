/* Counts the instructions that an emulated program runs, and prints them at its end as valgrind does.
 *
 * A plugin of the emulator qemu. The few declarations that it needs of the plugin interface stand here, since the
 * emulator's package has no header. */

#include <inttypes.h>
#include <stdint.h>
#include <stdio.h>

typedef uint64_t plugin_id;
struct block;

enum { ADD_NUMBER };

void qemu_plugin_register_vcpu_tb_trans_cb(plugin_id id, void (*translated)(plugin_id id, struct block *block));
void qemu_plugin_register_vcpu_tb_exec_inline(struct block *block, int operation, void *number, uint64_t added);
void qemu_plugin_register_atexit_cb(plugin_id id, void (*ended)(plugin_id id, void *data), void *data);
size_t qemu_plugin_tb_n_insns(const struct block *block);
void qemu_plugin_outs(const char *text);

int qemu_plugin_version = 1;

static uint64_t instructions;

static void count_block(plugin_id id, struct block *block)
{
    (void)id;
    qemu_plugin_register_vcpu_tb_exec_inline(block, ADD_NUMBER, &instructions, qemu_plugin_tb_n_insns(block));
}

static void print_count(plugin_id id, void *data)
{
    char line[64];
    (void)id, (void)data;
    snprintf(line, sizeof line, "Collected : %" PRIu64 "\n", instructions);
    qemu_plugin_outs(line);
}

int qemu_plugin_install(plugin_id id, const void *info, int argc, char **argv)
{
    (void)info, (void)argc, (void)argv;
    qemu_plugin_register_vcpu_tb_trans_cb(id, count_block);
    qemu_plugin_register_atexit_cb(id, print_count, NULL);
    return 0;
}
