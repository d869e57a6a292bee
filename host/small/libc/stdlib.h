#ifndef STDLIB_H
#define STDLIB_H

__attribute__((noreturn)) void exit(int status);

#endif
