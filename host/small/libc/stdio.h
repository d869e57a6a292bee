/* Of C's <stdio.h> what the programs of host/c use, over the debugger's calls: standard input is the file `script` of
 * the folder that the emulator runs in, and both outputs are its standard output. A conversion that is not named here
 * ends the program with status 3, so that none is passed over.
 *
 * printf: %s %d %u %x %X %lu %lX %zu, with '-', '0' and a width. sscanf: %u and %x, a space for any spaces. */
#ifndef STDIO_H
#define STDIO_H

#include <stddef.h>

typedef struct stream FILE;
extern FILE *const stdin, *const stdout, *const stderr;

__attribute__((format(printf, 1, 2))) int printf(const char *format, ...);
__attribute__((format(printf, 2, 3))) int fprintf(FILE *stream, const char *format, ...);
__attribute__((format(printf, 3, 4))) int snprintf(char *text, size_t size, const char *format, ...);
__attribute__((format(scanf, 2, 3))) int sscanf(const char *text, const char *format, ...);
int puts(const char *text);
char *fgets(char *line, int size, FILE *stream);

#endif
