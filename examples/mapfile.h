/*
 * The map that an example works on, read from a file of map text.
 */
#ifndef FRADNUMBER_EXAMPLES_MAPFILE_H
#define FRADNUMBER_EXAMPLES_MAPFILE_H

#include <stdio.h>

#include "words.h"

enum { MOST_CELLS = FRADNUMBER_MOST_CELLS, LONGEST_TEXT = FRADNUMBER_LONGEST_TEXT };

static uint8_t map[MOST_CELLS];
static size_t map_length;
static uint32_t width, height;

/* 1 if the file's text is a map; says what is wrong with it otherwise, and leaves a map of no cells. */
static int read_map_file(const char *path)
{
    static uint8_t text[LONGEST_TEXT + 1]; /* with one byte more than any map has, a file that goes on is refused as the whole is */
    struct fradnumber_read read;
    size_t length;
    FILE *file = fopen(path, "rb");
    width = height = 0;
    map_length = 0;
    if (file == NULL) {
        printf("%s cannot be opened\n", path);
        return 0;
    }
    length = fread(text, 1, sizeof text, file);
    fclose(file);
    read = fradnumber_read_map(text, length, map, MOST_CELLS);
    if (read.refusal != 0) {
        printf("%s: refused %lu at %lu: %s\n", path, (unsigned long)read.refusal, (unsigned long)read.place, in_words(read.refusal));
        return 0;
    }
    width = (uint32_t)read.width;
    height = (uint32_t)read.height;
    map_length = (size_t)width * height;
    return 1;
}

/* A word of at most 1048576 characters, one more than the longest route has steps; 0 at the end of the file. */
enum { MOST_LETTERS = 1048576 };

static inline int word(FILE *file, char *text)
{
    return fscanf(file, "%1048576s", text) == 1;
}

static inline int number(FILE *file, char *text, uint32_t *to)
{
    return word(file, text) && number_of(text, to);
}

#endif
