/* The argument FILE of the command language (docs/COMMANDS.md): the bytes of
   a plant file as one word. */

#ifndef FILE_WORD_H
#define FILE_WORD_H

#include <stddef.h>

/* Puts the bytes that the word stands for into `file`, which has room for as
   many as the word has; 0 if a backslash begins none of the signs. */
int unpack_file(const char *word, size_t length, char *file, size_t *file_length);

#endif
