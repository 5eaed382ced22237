/* The start of a program with newlib on qemu's Cortex-M3 (mps2-an385), which talks to the host by
 * semihosting. Its command is NAME FILE [ARGUMENT..]: the program reads FILE as its standard
 * input. */
#include <stdint.h>
#include <stdio.h>
#include <stdlib.h>
#include <string.h>

enum { SYS_GET_CMDLINE = 0x15, WORDS = 8, NO_FILE = 125 };

extern char stack_top[];
int main(int argc, char **argv);
void initialise_monitor_handles(void); /* newlib's, for standard output */
void start(void);

__attribute__((section(".vectors"), used)) static const void *const vectors[16] = { stack_top, start };

static char line[1024];

static void read_command(void) {
    uint32_t block[] = { (uint32_t)line, sizeof line };
    register uint32_t operation __asm__("r0") = SYS_GET_CMDLINE;
    register const uint32_t *arguments __asm__("r1") = block;
    __asm__ volatile("bkpt 0xab" : "+r"(operation) : "r"(arguments) : "memory");
}

void start(void) {
    char *words[WORDS + 1] = { NULL };
    int count = 0;
    read_command();
    initialise_monitor_handles();
    for (char *word = strtok(line, " "); word && count < WORDS; word = strtok(NULL, " ")) words[count++] = word;
    if (count < 2 || !freopen(words[1], "r", stdin)) exit(NO_FILE);
    words[1] = words[0];
    exit(main(count - 1, words + 1));
}
