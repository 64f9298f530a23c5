/* FILE: words in quotation marks are those of docs/COMMANDS.md. */

#include "file_word.h"

/* "the two hexadecimal digits HH: 0 to 9, A to F or a to f"; 16 for any
   other byte. */
static unsigned digit(char byte)
{
    if (byte >= '0' && byte <= '9')
        return (unsigned)(byte - '0');
    if (byte >= 'A' && byte <= 'F')
        return (unsigned)(byte - 'A') + 10;
    if (byte >= 'a' && byte <= 'f')
        return (unsigned)(byte - 'a') + 10;
    return 16;
}

/* What a sign of one letter stands for; 0 if the letter is none of these. */
static char byte_of_letter(char letter)
{
    switch (letter) {
    case 't': return '\t';
    case 'n': return '\n';
    case 's': return ' ';
    case '\\': return '\\';
    default: return 0;
    }
}

/* The sign behind a backslash: puts its bytes into the file and answers how
   many letters it has, or 0 if it is none of the signs. */
static size_t take_sign(const char *letters, size_t length, char *file, size_t *file_length)
{
    if (length >= 1 && letters[0] == 'e')
        return 1;
    if (length >= 1 && byte_of_letter(letters[0])) {
        file[(*file_length)++] = byte_of_letter(letters[0]);
        return 1;
    }
    if (length >= 3 && letters[0] == 'x' && digit(letters[1]) < 16 && digit(letters[2]) < 16) {
        file[(*file_length)++] = (char)(digit(letters[1]) * 16 + digit(letters[2]));
        return 3;
    }
    return 0;
}

/* "A backslash (92) begins a sign for bytes that could not stand in a word, or
   not be seen there; every other byte stands for itself." */
int unpack_file(const char *word, size_t length, char *file, size_t *file_length)
{
    size_t at = 0;
    *file_length = 0;
    while (at < length) {
        char byte = word[at++];
        if (byte != '\\') {
            file[(*file_length)++] = byte;
            continue;
        }
        size_t letters = take_sign(word + at, length - at, file, file_length);
        if (letters == 0)
            return 0;
        at += letters;
    }
    return 1;
}
