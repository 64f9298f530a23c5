/* A panel on the bench: reads commands from standard input, one a line,
   carries each out on one panel, and writes one line for each. The panel
   starts empty, or from the plant file that is the argument
   (docs/COMMANDS.md). */

#define _POSIX_C_SOURCE 200809L

#include "commands.h"
#include "plant.h"

#include <errno.h>
#include <fcntl.h>
#include <stdio.h>
#include <stdlib.h>
#include <string.h>
#include <unistd.h>

static struct panel panel;
static uint64_t line_number;

/* The line that is being read; a line_length above LINE_BYTES says that it is
   too long. */
static char line[LINE_BYTES];
static size_t line_length;

/* So many bytes a pipe takes whole or not at all. */
enum { PIECE = 4096 };

static char input[65536];
static char output[65536];
static size_t output_length;

static void give_up(const char *why)
{
    fprintf(stderr, "replay: %s\n", why);
    exit(1);
}

/* A full disk may have taken half a line: the file is cut off where the
   answers began, unless something stands behind them. */
static void take_back(size_t taken)
{
    off_t here = lseek(STDOUT_FILENO, 0, SEEK_CUR);
    if (lseek(STDOUT_FILENO, 0, SEEK_END) != here) {
        lseek(STDOUT_FILENO, here, SEEK_SET);
        return;
    }
    off_t start = lseek(STDOUT_FILENO, -(off_t)taken, SEEK_CUR);
    if (ftruncate(STDOUT_FILENO, start) < 0)
        return; /* what is no file keeps what it took */
}

static void write_out(void)
{
    size_t written = 0;
    while (written < output_length) {
        ssize_t n = write(STDOUT_FILENO, output + written, output_length - written);
        if (n < 0 && errno != EINTR) {
            take_back(written);
            give_up("the answers could not be written");
        }
        if (n > 0)
            written += (size_t)n;
    }
    output_length = 0;
}

static void end_of_line(void)
{
    static struct text answer;
    line_number += 1;
    carry_out_line(&panel, line, line_length, line_number, &answer);
    if (output_length + answer.length > PIECE)
        write_out();
    memcpy(output + output_length, answer.bytes, answer.length);
    output_length += answer.length;
    line_length = 0;
}

static void take(char byte)
{
    if (byte == '\n')
        end_of_line();
    else if (line_length < LINE_BYTES)
        line[line_length++] = byte;
    else
        line_length = LINE_BYTES + 1;
}

/* Reads the whole plant file, or one byte more than the longest has. */
static size_t read_file(const char *path, char *bytes)
{
    size_t length = 0;
    int file = open(path, O_RDONLY);
    if (file < 0)
        give_up("the plant file could not be read");
    while (length <= PLANT_BYTES) {
        ssize_t n = read(file, bytes + length, PLANT_BYTES + 1 - length);
        if (n < 0 && errno != EINTR)
            give_up("the plant file could not be read");
        if (n == 0)
            break;
        if (n > 0)
            length += (size_t)n;
    }
    close(file);
    return length;
}

/* "the panel starts as the file's in place of empty" */
static void start_from(const char *path)
{
    static char bytes[PLANT_BYTES + 1];
    char bad_line[64];
    size_t length = read_file(path, bytes);
    if (length > PLANT_BYTES)
        give_up("the plant file is too long");
    uint64_t number = read_plant(bytes, length, &panel);
    if (number == 0)
        return;
    snprintf(bad_line, sizeof bad_line, "the plant file is bad in line %llu",
             (unsigned long long)number);
    give_up(bad_line);
}

int main(int count, char **arguments)
{
    panel = empty_panel();
    if (count > 2)
        give_up("more than one plant file");
    if (count == 2)
        start_from(arguments[1]);
    for (;;) {
        ssize_t n = read(STDIN_FILENO, input, sizeof input);
        if (n < 0 && errno == EINTR)
            continue;
        if (n < 0)
            give_up("the input could not be read");
        if (n == 0)
            break;
        for (ssize_t i = 0; i < n; i++)
            take(input[i]);
        write_out();
    }
    if (line_length > 0)
        end_of_line();
    write_out();
    return 0;
}
