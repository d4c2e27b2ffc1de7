/* Texts that end with a NUL, and letters. */
#include <ctype.h>
#include <string.h>

size_t strlen(const char *text)
{
    size_t length = 0;
    while (text[length] != 0) {
        length++;
    }
    return length;
}

int strcmp(const char *first, const char *second)
{
    while (*first != 0 && *first == *second) {
        first++;
        second++;
    }
    return (unsigned char)*first - (unsigned char)*second;
}

/* The NUL counts as one of the text's bytes. */
char *strrchr(const char *text, int byte)
{
    for (size_t i = strlen(text) + 1; i > 0; i--) {
        if (text[i - 1] == (char)byte) {
            return (char *)text + i - 1;
        }
    }
    return NULL;
}

int islower(int byte)
{
    return byte >= 'a' && byte <= 'z';
}

int toupper(int byte)
{
    return islower(byte) ? byte - 'a' + 'A' : byte;
}
