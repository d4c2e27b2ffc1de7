/* printf with %s %c %d %u %x %%, each with a width, filled with spaces or 0, and with l, ll, z or nothing. */
#include "file.h"

#include "system.h"

#include <stdarg.h>
#include <stdint.h>
#include <stdlib.h>
#include <string.h>

/* What stands between % and the letter. */
typedef struct {
    char fill;
    int width;
    int wide;
} shape;

/* Decimal digits come of taking these away: the core does not divide. */
static const uint64_t POWERS[] = {
    10000000000000000000u, 1000000000000000000, 100000000000000000, 10000000000000000, 1000000000000000,
    100000000000000,       10000000000000,      1000000000000,      100000000000,      10000000000,
    1000000000,            100000000,           10000000,           1000000,           100000,
    10000,                 1000,                100,                10,                1,
};

enum { MOST_DIGITS = sizeof POWERS / sizeof *POWERS };

/* The digits of a number, the first one first; the answer is how many. */
static int decimal(char *digits, uint64_t value)
{
    int count = 0;
    for (int i = 0; i < MOST_DIGITS; i++) {
        char digit = '0';
        for (; value >= POWERS[i]; value -= POWERS[i]) {
            digit++;
        }
        if (digit != '0' || count > 0 || POWERS[i] == 1) {
            digits[count++] = digit;
        }
    }
    return count;
}

static int hexadecimal(char *digits, uint64_t value)
{
    int count = 0;
    for (int shift = 60; shift >= 0; shift -= 4) {
        if (value >> shift != 0 || shift == 0) {
            digits[count++] = "0123456789abcdef"[value >> shift & 15];
        }
    }
    return count;
}

static void put_filled(FILE *file, char fill, int width, const char *text, size_t length)
{
    for (size_t wanted = (size_t)width; wanted > length; wanted--) {
        put_byte(file, fill);
    }
    for (size_t i = 0; i < length; i++) {
        put_byte(file, text[i]);
    }
}

/* Spaces come ahead of the sign, and 0 behind it. */
static void put_signed(FILE *file, shape as, int64_t value)
{
    char text[1 + MOST_DIGITS] = "-";
    int sign = value < 0;
    size_t digits = (size_t)decimal(text + 1, sign ? -(uint64_t)value : (uint64_t)value);
    if (as.fill == ' ') {
        put_filled(file, ' ', as.width, text + 1 - sign, digits + (size_t)sign);
    } else {
        put_filled(file, '0', 0, text, (size_t)sign);
        put_filled(file, '0', as.width > sign ? as.width - sign : 0, text + 1, digits);
    }
}

static void put_unsigned(FILE *file, shape as, uint64_t value, int (*digits)(char *, uint64_t))
{
    char text[MOST_DIGITS];
    put_filled(file, as.fill, as.width, text, (size_t)digits(text, value));
}

static const char *shape_of(const char *form, shape *as)
{
    *as = (shape){.fill = ' '};
    if (*form == '0') {
        as->fill = *form++;
    }
    for (; *form >= '0' && *form <= '9'; form++) {
        as->width = as->width * 10 + (*form - '0');
    }
    for (; *form == 'l' || *form == 'z'; form++) {
        as->wide = 1;
    }
    return form;
}

static uint64_t next_unsigned(va_list *words, int wide)
{
    return wide ? va_arg(*words, uint64_t) : va_arg(*words, unsigned);
}

static void put_word(FILE *file, char letter, shape as, va_list *words)
{
    char byte = '%';
    const char *text = &byte;
    switch (letter) {
    case 's':
        text = va_arg(*words, const char *);
        put_filled(file, ' ', as.width, text, strlen(text));
        break;
    case 'c':
        byte = (char)va_arg(*words, int);
        put_filled(file, ' ', as.width, text, 1);
        break;
    case '%':
        put_byte(file, '%');
        break;
    case 'd':
        put_signed(file, as, as.wide ? va_arg(*words, int64_t) : va_arg(*words, int));
        break;
    case 'u':
        put_unsigned(file, as, next_unsigned(words, as.wide), decimal);
        break;
    case 'x':
        put_unsigned(file, as, next_unsigned(words, as.wide), hexadecimal);
        break;
    default:
        /* A test must not go on with a text that is not what it asked for. */
        fprintf(stderr, "printf knows no %%%c\n", letter);
        exit(2);
    }
}

static int put_all(FILE *file, const char *form, va_list *words)
{
    int before = file->printed;
    for (; *form != 0; form++) {
        if (*form == '%') {
            shape as;
            form = shape_of(form + 1, &as);
            put_word(file, *form, as, words);
        } else {
            put_byte(file, *form);
        }
    }
    if (file == stderr) {
        fflush(file);
    }
    return file->printed - before;
}

int printf(const char *form, ...)
{
    va_list words;
    va_start(words, form);
    int count = put_all(stdout, form, &words);
    va_end(words);
    return count;
}

int fprintf(FILE *file, const char *form, ...)
{
    va_list words;
    va_start(words, form);
    int count = put_all(file, form, &words);
    va_end(words);
    return count;
}

void perror(const char *what)
{
    fprintf(stderr, "%s: error %d\n", what, last_error);
}
