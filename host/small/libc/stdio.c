#include "../semihost.h"

#include <stdarg.h>
#include <stdio.h>
#include <stdlib.h>
#include <string.h>

enum { NOT_KNOWN = 3, BUFFER_BYTES = 256 };

struct stream {
    char buffer[BUFFER_BYTES];
    size_t length, next;
};

static struct stream script, screen;
FILE *const stdin = &script, *const stdout = &screen, *const stderr = &screen;

/* ---- out ---- */

static void flush(void) {
    semihost_write(screen.buffer, screen.length);
    screen.length = 0;
}

void exit(int status) {
    flush();
    semihost_exit(status);
}

/* Where the text goes: to the screen, or to a string with so much room. */
struct sink {
    char *text;
    size_t size, length;
};

static void put(struct sink *sink, char letter) {
    if (sink->text != NULL) {
        if (sink->length + 1 < sink->size) {
            sink->text[sink->length] = letter;
        }
    } else {
        screen.buffer[screen.length++] = letter;
        if (screen.length == BUFFER_BYTES || letter == '\n') {
            flush();
        }
    }
    sink->length++;
}

struct field {
    int left;
    char fill;
    unsigned width;
};

static void put_field(struct sink *sink, struct field field, const char *text) {
    size_t length = strlen(text);
    for (size_t i = length; !field.left && i < field.width; i++) {
        put(sink, field.fill);
    }
    for (size_t i = 0; i < length; i++) {
        put(sink, text[i]);
    }
    for (size_t i = length; field.left && i < field.width; i++) {
        put(sink, ' ');
    }
}

static void put_number(struct sink *sink, struct field field, unsigned long number, unsigned base, const char *digits) {
    char text[12];
    char *first = text + sizeof text - 1;
    *first = '\0';
    do {
        *--first = digits[number % base];
        number /= base;
    } while (number > 0);
    put_field(sink, field, first);
}

static struct field field_of(const char **at) {
    struct field field = {0, ' ', 0};
    for (; **at == '-' || **at == '0'; ++*at) {
        field.left |= **at == '-';
        field.fill = **at == '0' ? '0' : field.fill;
    }
    for (; **at >= '0' && **at <= '9'; ++*at) {
        field.width = 10 * field.width + (unsigned)(**at - '0');
    }
    return field;
}

/* int, long and size_t have 32 bits each on these processors. */
static void print(struct sink *sink, const char *at, va_list values) {
    for (; *at != '\0'; at++) {
        if (*at != '%') {
            put(sink, *at);
            continue;
        }
        at++;
        struct field field = field_of(&at);
        at += *at == 'l' || *at == 'z';
        if (*at == 's') {
            put_field(sink, field, va_arg(values, const char *));
        } else if (*at == 'X' || *at == 'x') {
            put_number(sink, field, va_arg(values, unsigned), 16, *at == 'X' ? "0123456789ABCDEF" : "0123456789abcdef");
        } else if (*at == 'u') {
            put_number(sink, field, va_arg(values, unsigned), 10, "0123456789");
        } else if (*at == 'd') {
            int number = va_arg(values, int);
            if (number < 0) {
                put(sink, '-');
            }
            put_number(sink, field, number < 0 ? 0 - (unsigned)number : (unsigned)number, 10, "0123456789");
        } else {
            exit(NOT_KNOWN);
        }
    }
}

int printf(const char *format, ...) {
    struct sink sink = {NULL, 0, 0};
    va_list values;
    va_start(values, format);
    print(&sink, format, values);
    va_end(values);
    return (int)sink.length;
}

int fprintf(FILE *stream, const char *format, ...) {
    struct sink sink = {NULL, 0, 0};
    va_list values;
    (void)stream;
    va_start(values, format);
    print(&sink, format, values);
    va_end(values);
    return (int)sink.length;
}

int snprintf(char *text, size_t size, const char *format, ...) {
    struct sink sink = {text, size, 0};
    va_list values;
    va_start(values, format);
    print(&sink, format, values);
    va_end(values);
    if (size > 0) {
        text[sink.length < size ? sink.length : size - 1] = '\0';
    }
    return (int)sink.length;
}

int puts(const char *text) { return printf("%s\n", text); }

/* ---- in ---- */

static int next_letter(void) {
    if (script.next == script.length) {
        script.length = semihost_read(script.buffer, BUFFER_BYTES);
        script.next = 0;
    }
    return script.next < script.length ? (unsigned char)script.buffer[script.next++] : -1;
}

char *fgets(char *line, int size, FILE *stream) {
    int length = 0;
    (void)stream;
    while (length + 1 < size && (length == 0 || line[length - 1] != '\n')) {
        int letter = next_letter();
        if (letter < 0) {
            break;
        }
        line[length++] = (char)letter;
    }
    line[length] = '\0';
    return length > 0 ? line : NULL;
}

static unsigned digit_of(char letter) {
    if (letter >= '0' && letter <= '9') {
        return (unsigned)(letter - '0');
    }
    letter |= 0x20;
    return letter >= 'a' && letter <= 'f' ? (unsigned)(letter - 'a' + 10) : 16;
}

/* 0 where there is no digit. */
static int scan_number(const char **text, unsigned base, unsigned *number) {
    const char *start;
    while (**text == ' ') {
        ++*text;
    }
    start = *text;
    *number = 0;
    for (; digit_of(**text) < base; ++*text) {
        *number = base * *number + digit_of(**text);
    }
    return *text > start;
}

int sscanf(const char *text, const char *format, ...) {
    int scanned = 0;
    va_list places;
    va_start(places, format);
    for (; *format != '\0'; format++) {
        if (*format == '%') {
            format++;
            if (*format != 'u' && *format != 'x') {
                exit(NOT_KNOWN);
            }
            unsigned number;
            if (!scan_number(&text, *format == 'u' ? 10 : 16, &number)) {
                break;
            }
            *va_arg(places, unsigned *) = number;
            scanned++;
        } else if (*format == ' ') {
            while (*text == ' ') {
                text++;
            }
        } else if (*format == *text) {
            text++;
        } else {
            break;
        }
    }
    va_end(places);
    return scanned;
}
