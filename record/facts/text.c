#define _GNU_SOURCE
#include "text.h"

#include <errno.h>
#include <string.h>
#include <unistd.h>

void text_flush(struct text *text) {
    for (size_t done = 0; done < text->used;) {
        ssize_t written = write(text->file, text->bytes + done, text->used - done);
        if (written < 0 && errno != EINTR)
            refuse(text->path ? text->path : "standard output", "%s", strerror(errno));
        if (written > 0) done += (size_t)written;
    }
    text->used = 0;
}

void text_begin(struct text *text) {
    if (text->used + LINE_BYTES > sizeof text->bytes) text_flush(text);
}

static void put(struct text *text, const char *bytes, size_t length) {
    memcpy(text->bytes + text->used, bytes, length);
    text->used += length;
}

void text_word(struct text *text, const char *word) {
    put(text, word, strlen(word));
}

/* Puts the digits of a number. */
static void put_digits(struct text *text, uint64_t number) {
    static const char pairs[] =
        "0001020304050607080910111213141516171819202122232425262728293031323334"
        "3536373839404142434445464748495051525354555657585960616263646566676869"
        "707172737475767778798081828384858687888990919293949596979899";
    char digits[20], *digit = digits + sizeof digits;
    for (; number >= 100; number /= 100) memcpy(digit -= 2, pairs + 2 * (number % 100), 2);
    if (number >= 10)
        memcpy(digit -= 2, pairs + 2 * number, 2);
    else
        *--digit = (char)('0' + number);
    put(text, digit, (size_t)(digits + sizeof digits - digit));
}

void text_number(struct text *text, uint64_t number) {
    text->bytes[text->used++] = ' ';
    put_digits(text, number);
}

void text_time(struct text *text, uint64_t time) {
    text_begin(text);
    put_digits(text, time);
}

void text_name(struct text *text, const struct name *name) {
    put(text, " ", 1);
    put(text, name->bytes, name->length);
}

void text_end(struct text *text) {
    put(text, "\n", 1);
}
