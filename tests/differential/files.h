/* Plant files for the scripts, good and damaged, and the words that stand for
   them in a script (docs/COMMANDS.md). */

#ifndef FILES_H
#define FILES_H

#include "../../peer/plant.h"

#include <stddef.h>

/* The longest good file and what one damage adds have room in it. */
struct file {
    size_t length;
    char bytes[PLANT_BYTES];
};

/* Each byte may need a sign of four letters, and an empty sign before it. */
enum { FILE_WORD_BYTES = 6 * PLANT_BYTES };

/* The file of this sound panel. */
void good_file(const struct panel *panel, struct file *file);

/* Damages a good file. A few such files are still good. */
void damage_file(struct file *file);

/* Packs the file into one word, now and then with a bad sign; answers the
   word's length. */
size_t pack_file(const struct file *file, char *word);

#endif
