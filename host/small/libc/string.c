#include <stdint.h>
#include <string.h>

#ifdef __arm__
/* The library brings these for itself, by the names of Arm's run-time ABI; on a RISC-V it has C's. */
void __aeabi_memcpy(void *to, const void *from, size_t length);
void __aeabi_memmove(void *to, const void *from, size_t length);
void __aeabi_memset(void *to, size_t length, int byte);

void *memcpy(void *to, const void *from, size_t length) {
    __aeabi_memcpy(to, from, length);
    return to;
}

void *memmove(void *to, const void *from, size_t length) {
    __aeabi_memmove(to, from, length);
    return to;
}

void *memset(void *to, int byte, size_t length) {
    __aeabi_memset(to, length, byte);
    return to;
}
#endif

typedef uint32_t word __attribute__((may_alias));

static int are_aligned(const void *one, const void *other) {
    return (((uintptr_t)one | (uintptr_t)other) & (sizeof(word) - 1)) == 0;
}

/* Words that are the same are passed over: on an emulated board this is where a test's time goes. */
int memcmp(const void *one, const void *other, size_t length) {
    const unsigned char *a = one, *b = other;
    size_t i = 0;
    if (are_aligned(one, other)) {
        const word *x = one, *y = other;
        for (; i + sizeof(word) <= length && x[i / sizeof(word)] == y[i / sizeof(word)]; i += sizeof(word)) {
        }
    }
    for (; i < length; i++) {
        if (a[i] != b[i]) {
            return a[i] < b[i] ? -1 : 1;
        }
    }
    return 0;
}

size_t strlen(const char *text) {
    size_t length = 0;
    while (text[length] != '\0') {
        length++;
    }
    return length;
}

int strcmp(const char *one, const char *other) {
    while (*one != '\0' && *one == *other) {
        one++;
        other++;
    }
    return (unsigned char)*one - (unsigned char)*other;
}

size_t strcspn(const char *text, const char *any) {
    size_t length = 0;
    for (; text[length] != '\0'; length++) {
        for (const char *stop = any; *stop != '\0'; stop++) {
            if (text[length] == *stop) {
                return length;
            }
        }
    }
    return length;
}
