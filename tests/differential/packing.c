/* Files as words: bytes by themselves or by a sign of docs/COMMANDS.md. */

#include "files.h"
#include "chance.h"

#include <stdio.h>
#include <string.h>

/* The letter of the sign for a byte that cannot stand in a word, else 0. */
static char letter_of(char byte)
{
    switch (byte) {
    case '\t': return 't';
    case '\n': return 'n';
    case ' ': return 's';
    case '\\': return '\\';
    default: return 0;
    }
}

static size_t put_sign(char *word, char letter)
{
    word[0] = '\\';
    word[1] = letter;
    return 2;
}

static size_t put_digits(char *word, char byte)
{
    char sign[8];
    snprintf(sign, sizeof sign, chance(500) ? "\\x%02X" : "\\x%02x", (unsigned char)byte);
    memcpy(word, sign, 4);
    return 4;
}

/* Puts what is no sign somewhere into the word, or half a sign at its end. */
static size_t put_bad_sign(char *word, size_t length)
{
    static const char *const signs[] = {
        "\\q", "\\xG0", "\\xg0", "\\x:0", "\\x/0", "\\x@0", "\\x`0", "\\x0G", "\\x0g",
        "\\T", "\\E", "\\r", "\\0", "\\X41"
    };
    static const char *const halves[] = { "\\", "\\", "\\x", "\\x4" };
    int at_end = chance(500);
    const char *sign = at_end ? ONE_OF(halves) : ONE_OF(signs);
    size_t at = at_end ? length : (size_t)below(length + 1), more = strlen(sign);
    memmove(word + at + more, word + at, length - at);
    memcpy(word + at, sign, more);
    return length + more;
}

size_t pack_file(const struct file *file, char *word)
{
    size_t length = 0;
    uint64_t digits = chance(250) ? between(1, 200) : 0, empty = chance(100) ? 10 : 0;
    for (size_t i = 0; i < file->length; i++) {
        char byte = file->bytes[i];
        if (chance(empty))
            length += put_sign(word + length, 'e');
        if (chance(digits))
            length += put_digits(word + length, byte);
        else if (letter_of(byte))
            length += put_sign(word + length, letter_of(byte));
        else
            word[length++] = byte;
    }
    if (length == 0 || chance(empty))
        length += put_sign(word + length, 'e');
    return chance(100) ? put_bad_sign(word, length) : length;
}
