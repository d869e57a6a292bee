/* Moving and filling memory: what the compiled library asks for by these names, on a processor that has nothing beneath
 * it. On Arm they are those of the run-time ABI and no others, so that a firmware's own memcpy stays its own; and all
 * are weak. Compiled with -fno-builtin, or a loop here would be taken for a call of itself, and for size: but for the
 * ring of a queue, what the library fills is a few bytes, seldom aligned, and it moves none. */
#include <stddef.h>
#include <stdint.h>

#define WEAK __attribute__((weak))

/* Upwards, so that bytes which overlap may move down. */
static void copy(uint8_t *to, const uint8_t *from, size_t length) {
    for (size_t i = 0; i < length; i++) {
        to[i] = from[i];
    }
}

static void move(uint8_t *to, const uint8_t *from, size_t length) {
    if ((uintptr_t)to <= (uintptr_t)from) {
        copy(to, from, length);
        return;
    }
    while (length > 0) {
        length--;
        to[length] = from[length];
    }
}

static void fill(uint8_t *to, uint8_t byte, size_t length) {
    for (size_t i = 0; i < length; i++) {
        to[i] = byte;
    }
}

#ifdef __arm__

#define ALSO(name) __attribute__((weak, alias(name)))

void __aeabi_memcpy(void *to, const void *from, size_t length);
void __aeabi_memmove(void *to, const void *from, size_t length);
void __aeabi_memset(void *to, size_t length, int byte);
void __aeabi_memclr(void *to, size_t length);

WEAK void __aeabi_memcpy(void *to, const void *from, size_t length) { copy(to, from, length); }
WEAK void __aeabi_memmove(void *to, const void *from, size_t length) { move(to, from, length); }
WEAK void __aeabi_memset(void *to, size_t length, int byte) { fill(to, (uint8_t)byte, length); }
WEAK void __aeabi_memclr(void *to, size_t length) { fill(to, 0, length); }

/* One that ends in a number may count on that alignment; these need not. */
ALSO("__aeabi_memcpy") void __aeabi_memcpy4(void *to, const void *from, size_t length);
ALSO("__aeabi_memcpy") void __aeabi_memcpy8(void *to, const void *from, size_t length);
ALSO("__aeabi_memmove") void __aeabi_memmove4(void *to, const void *from, size_t length);
ALSO("__aeabi_memmove") void __aeabi_memmove8(void *to, const void *from, size_t length);
ALSO("__aeabi_memset") void __aeabi_memset4(void *to, size_t length, int byte);
ALSO("__aeabi_memset") void __aeabi_memset8(void *to, size_t length, int byte);
ALSO("__aeabi_memclr") void __aeabi_memclr4(void *to, size_t length);
ALSO("__aeabi_memclr") void __aeabi_memclr8(void *to, size_t length);

#else

void *memcpy(void *to, const void *from, size_t length);
void *memmove(void *to, const void *from, size_t length);
void *memset(void *to, int byte, size_t length);

WEAK void *memcpy(void *to, const void *from, size_t length) {
    copy(to, from, length);
    return to;
}

WEAK void *memmove(void *to, const void *from, size_t length) {
    move(to, from, length);
    return to;
}

WEAK void *memset(void *to, int byte, size_t length) {
    fill(to, (uint8_t)byte, length);
    return to;
}

#endif
