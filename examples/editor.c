/* What an editor plug-in does with the library: blanks the file given as argument, shows that length and newlines stay, and lists the functions
   of the file.

   cc -std=c11 -Iinclude examples/editor.c target/staticlib/libcomplexity.a -o editor */
#include "complexity.h"

#include <stdio.h>
#include <stdlib.h>
#include <string.h>

enum { MAX_TREE = 16777216, MAX_FUNCTIONS = 8192, RECORD = 32, HEAD = 20 };

/* A record's numbers, by their places. */
enum { NAME = 1, NAME_LENGTH = 2, LINE = 3, LINES = 4, CYCLOMATIC = 5, NESTING = 6, PARAMETERS = 7 };

static uint8_t tree[MAX_TREE], work[MAX_TREE], records[MAX_FUNCTIONS * RECORD];

static void put_number(uint8_t *at, size_t n) {
    for (int k = 0; k < 4; k++) at[k] = (uint8_t)(n >> 8 * k);
}

static uint32_t number_at(const uint8_t *at) {
    return at[0] | (uint32_t)at[1] << 8 | (uint32_t)at[2] << 16 | (uint32_t)at[3] << 24;
}

/* A tree of one file; the text is read to its place. The tree's length, or 0. */
static size_t pack(const char *path) {
    size_t path_length = strlen(path), at = HEAD + path_length, length;
    FILE *file;
    if (at > MAX_TREE || !(file = fopen(path, "rb"))) return 0;
    length = fread(tree + at, 1, MAX_TREE - at, file);
    /* More than the room is not a shorter text. */
    if (ferror(file) || fgetc(file) != EOF) {
        fclose(file);
        return 0;
    }
    fclose(file);
    put_number(tree, 1);
    put_number(tree + 4, HEAD);
    put_number(tree + 8, path_length);
    put_number(tree + 12, at);
    put_number(tree + 16, length);
    memcpy(tree + HEAD, path, path_length);
    return at + length;
}

static int blank(const uint8_t *text, size_t length) {
    size_t newlines = 0;
    uint32_t number = complexity_blank(text, length, work, MAX_TREE);
    if (number != 0) {
        fprintf(stderr, "editor: refused with the number %u\n", (unsigned)number);
        return 0;
    }
    for (size_t k = 0; k < length; k++) {
        if ((text[k] == '\n') != (work[k] == '\n')) return 0;
        newlines += text[k] == '\n';
    }
    printf("blanked: %zu bytes as before, %zu newlines at their places\n", length, newlines);
    return 1;
}

static int list(size_t length) {
    uint8_t counts[4];
    uint32_t number = complexity_scan(tree, length, work, MAX_TREE, records, sizeof records, counts, sizeof counts);
    if (number != 0) {
        fprintf(stderr, "editor: refused with the number %u\n", (unsigned)number);
        return 0;
    }
    for (uint32_t k = 0; k < number_at(counts); k++) {
        const uint8_t *record = records + RECORD * k;
        uint32_t field[8];
        for (int j = 0; j < 8; j++) field[j] = number_at(record + 4 * j);
        printf("%u: ", (unsigned)field[LINE]);
        fwrite(tree + field[NAME], 1, field[NAME_LENGTH], stdout);
        printf(", cyclomatic %u, lines %u, nesting %u, parameters %u\n", (unsigned)field[CYCLOMATIC], (unsigned)field[LINES],
               (unsigned)field[NESTING], (unsigned)field[PARAMETERS]);
    }
    return 1;
}

int main(int argc, char **argv) {
    size_t length, text;
    if (argc != 2) {
        fprintf(stderr, "usage: editor FILE\n");
        return 2;
    }
    length = pack(argv[1]);
    if (length == 0) {
        fprintf(stderr, "editor: %s cannot be read, or is too long\n", argv[1]);
        return 2;
    }
    text = number_at(tree + 12);
    return blank(tree + text, length - text) && list(length) ? 0 : 2;
}
