#include "semihost.h"

#include <stdint.h>

enum { OPEN = 0x01, WRITE = 0x05, READ = 0x06, EXIT = 0x20 };
enum { TO_READ = 0, TO_WRITE = 4, ENDED_BY_ITSELF = 0x20026 };

/* The number of what is asked for and the address of its parameters, in the first two registers; then a break that a
 * debugger knows from others, on a RISC-V by the two instructions around it. */
#ifdef __riscv
#define FIRST "a0"
#define SECOND "a1"
#define BREAK                                                                                                          \
    ".option push\n\t.option norvc\n\t.balign 16\n\tslli x0, x0, 0x1f\n\tebreak\n\tsrai x0, x0, 7\n\t.option pop"
#else
#define FIRST "r0"
#define SECOND "r1"
#define BREAK "bkpt 0xAB"
#endif

static uintptr_t ask(uintptr_t what, const void *with) {
    register uintptr_t first __asm__(FIRST) = what;
    register const void *second __asm__(SECOND) = with;
    __asm__ volatile(BREAK : "+r"(first) : "r"(second) : "memory");
    return first;
}

static uintptr_t opened(const char *name, size_t length, uintptr_t mode) {
    const uintptr_t parameters[3] = {(uintptr_t)name, mode, length};
    return ask(OPEN, parameters);
}

/* The name of the console. */
static const char console[] = ":tt";
static const char script[] = "script";

void semihost_write(const char *bytes, size_t length) {
    static uintptr_t handle;
    if (handle == 0) {
        handle = opened(console, sizeof console - 1, TO_WRITE);
    }
    const uintptr_t parameters[3] = {handle, (uintptr_t)bytes, length};
    ask(WRITE, parameters);
}

/* The answer is how many bytes there were not. */
size_t semihost_read(char *bytes, size_t length) {
    static uintptr_t handle;
    if (handle == 0) {
        handle = opened(script, sizeof script - 1, TO_READ);
    }
    const uintptr_t parameters[3] = {handle, (uintptr_t)bytes, length};
    return length - ask(READ, parameters);
}

void semihost_exit(int status) {
    const uintptr_t parameters[2] = {ENDED_BY_ITSELF, (uintptr_t)status};
    for (;;) {
        ask(EXIT, parameters);
    }
}
