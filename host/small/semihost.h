/* What a debugger, here the emulator, does for a program on a board without a console (Arm's "semihosting"). */
#ifndef SEMIHOST_H
#define SEMIHOST_H

#include <stddef.h>

void semihost_write(const char *bytes, size_t length);

/* Reads on in the file `script`; how many bytes there were. */
size_t semihost_read(char *bytes, size_t length);

__attribute__((noreturn)) void semihost_exit(int status);

#endif
