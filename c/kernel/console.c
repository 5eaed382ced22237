#include "board.h"

#include <stdarg.h>
#include <stdbool.h>

enum { DIGITS_ROOM = 24 }; /* a sign, 20 digits and the end */

/* What stands between '%' and its letter. */
struct field {
    int width;      /* characters at least */
    bool is_left;   /* the text before the spaces */
    bool is_long;   /* 64 bits */
};

static void put_spaces(int count) {
    while (count-- > 0) board_put(' ');
}

static void put_text(const char *text, struct field field) {
    int length = 0;
    while (text[length]) length++;
    if (!field.is_left) put_spaces(field.width - length);
    while (*text) board_put(*text++);
    if (field.is_left) put_spaces(field.width - length);
}

static void put_number(uint64_t number, unsigned base, bool is_negative, struct field field) {
    char room[DIGITS_ROOM], *at = room + DIGITS_ROOM - 1;
    *at = '\0';
    do *--at = "0123456789abcdef"[number % base];
    while ((number /= base) != 0);
    if (is_negative) *--at = '-';
    put_text(at, field);
}

/* Reads what is between '%' and its letter. Returns where the letter is. */
static const char *read_field(const char *form, struct field *field) {
    *field = (struct field){ .is_left = *form == '-' };
    form += field->is_left;
    while (*form >= '0' && *form <= '9') field->width = 10 * field->width + (*form++ - '0');
    while (*form == 'l') field->is_long = true, form++;
    return form;
}

static void put_signed(long long number, struct field field) {
    bool is_negative = number < 0;
    put_number(is_negative ? -(uint64_t)number : (uint64_t)number, 10, is_negative, field);
}

void print(const char *form, ...) {
    struct field field;
    va_list rest;
    va_start(rest, form);
    for (; *form; form++) {
        if (*form != '%') {
            board_put(*form);
            continue;
        }
        form = read_field(form + 1, &field);
        unsigned base = *form == 'x' ? 16 : 10;
        if (*form == 's') put_text(va_arg(rest, const char *), field);
        else if (*form == 'd' && field.is_long) put_signed(va_arg(rest, long long), field);
        else if (*form == 'd') put_signed(va_arg(rest, int), field);
        else if (field.is_long) put_number(va_arg(rest, unsigned long long), base, false, field);
        else put_number(va_arg(rest, unsigned), base, false, field);
    }
    va_end(rest);
}
