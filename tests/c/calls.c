/* The exported calls from C: a text blanked, a tree scanned, reported, updated and checked, and refusals that leave every buffer as it was. */
#include "complexity.h"

#include <stdio.h>
#include <stdlib.h>
#include <string.h>

enum { ROOM = 65536, RECORD = 32 };

static uint8_t tree[ROOM], work[ROOM], records[ROOM], output[ROOM], baseline[ROOM], counts[16], before[ROOM];
static size_t tree_length;

static void expect(int holds, const char *what) {
    if (!holds) {
        fprintf(stderr, "calls: %s\n", what);
        exit(1);
    }
}

static void put_number(uint8_t *at, uint32_t n) {
    at[0] = n & 255;
    at[1] = n >> 8 & 255;
    at[2] = n >> 16 & 255;
    at[3] = n >> 24;
}

static uint32_t number_at(const uint8_t *at) {
    return at[0] | (uint32_t)at[1] << 8 | (uint32_t)at[2] << 16 | (uint32_t)at[3] << 24;
}

/* A tree of the given files, whose paths rise. */
static void pack(size_t files, const char *const paths[], const char *const texts[]) {
    size_t at = 4 + 16 * files;
    put_number(tree, (uint32_t)files);
    for (size_t k = 0; k < files; k++) {
        size_t path = strlen(paths[k]), text = strlen(texts[k]);
        uint8_t *entry = tree + 4 + 16 * k;
        put_number(entry, (uint32_t)at);
        put_number(entry + 4, (uint32_t)path);
        put_number(entry + 8, (uint32_t)(at + path));
        put_number(entry + 12, (uint32_t)text);
        memcpy(tree + at, paths[k], path);
        memcpy(tree + at + path, texts[k], text);
        at += path + text;
    }
    tree_length = at;
}

static void blanking(void) {
    const char *text = "let a = \"x\n{\"; // }\nlet b = 'c';\n";
    const char *blank = "let a =   \n  ;     \nlet b =    ;\n";
    size_t n = strlen(text);
    memset(output, 'z', ROOM);
    expect(complexity_blank((const uint8_t *)text, n, output, ROOM) == 0, "blank succeeds");
    expect(memcmp(output, blank, n) == 0, "strings, comments and characters are blanked");
    expect(output[n] == 'z', "the bytes beyond remain");
    memset(output, 'z', ROOM);
    expect(complexity_blank((const uint8_t *)text, n, output, n - 1) == 5, "a short output is refused");
    expect(output[0] == 'z', "a refusal writes nothing");
}

static void checking(void) {
    const char *const paths[] = {"src/a.rs", "src/b.rs"};
    const char *const texts[] = {"fn small(x: u8) -> u8 {\n    if x > 1 { x } else { 1 }\n}\n",
                                 "fn wide(a: u8, b: u8, c: u8, d: u8, e: u8, f: u8, g: u8, h: u8) {}\n"};
    const char *pass = "complexity: no function got worse, nothing new is over the thresholds\n";
    const char *fail = "complexity: 1 regressions\n  src/b.rs:1 wide is new and over: cyclomatic 1 lines 1 nesting 1 params 8\n";
    const char *stale = "1 baseline entries no longer exist:\n  src/c.rs gone\nrun --update to drop them\n";
    const char *report = "2 functions in src/\nmean cyclomatic 1.5, over the thresholds: 1\n\ncyclo lines nest params  where\n"
                         "    1     1    1      8  src/b.rs:1 wide\n\nheaviest files by total cyclomatic complexity\n     2  src/a.rs\n     1  src/b.rs\n";
    pack(2, paths, texts);

    expect(complexity_scan(tree, tree_length, work, ROOM, records, ROOM, counts, 4) == 0, "scan succeeds");
    expect(number_at(counts) == 2, "two functions are counted");
    expect(number_at(records + RECORD) == 1, "the second record is of the second file");
    expect(memcmp(tree + number_at(records + 4), "small", number_at(records + 8)) == 0, "a record tells where the name stands");

    expect(complexity_report(tree, tree_length, work, ROOM, records, ROOM, output, ROOM, counts, 8) == 0, "report succeeds");
    expect(number_at(counts) == strlen(report) && memcmp(output, report, strlen(report)) == 0, "the report lists what is over the limits");

    expect(complexity_check(tree, tree_length, baseline, 0, work, ROOM, records, ROOM, output, ROOM, counts, 16) == 0, "check succeeds");
    expect(number_at(counts) == strlen(fail) && memcmp(output, fail, strlen(fail)) == 0, "a new function over the limits is a regression");
    expect(number_at(counts + 4) == 2 && number_at(counts + 8) == 1 && number_at(counts + 12) == 0, "check counts what it found");

    expect(complexity_update(tree, tree_length, work, ROOM, records, ROOM, baseline, ROOM, counts, 12) == 0, "update succeeds");
    size_t written = number_at(counts);
    expect(number_at(counts + 8) == 1, "one function is recorded");
    expect(complexity_check(tree, tree_length, baseline, written, work, ROOM, records, ROOM, output, ROOM, counts, 16) == 0, "check succeeds");
    expect(number_at(counts) == strlen(pass) && memcmp(output, pass, strlen(pass)) == 0, "check is quiet after an update");

    memcpy(baseline + written, "src/c.rs\tgone\t20\t30\n", 20);
    expect(complexity_check(tree, tree_length, baseline, written + 20, work, ROOM, records, ROOM, output, ROOM, counts, 16) == 0, "check succeeds");
    expect(memcmp(output, stale, strlen(stale)) == 0 && memcmp(output + strlen(stale), pass, strlen(pass)) == 0, "stale entries come first");
    expect(number_at(counts + 12) == 1, "one entry is stale");
}

static void refusing(void) {
    memcpy(before, output, ROOM);
    expect(complexity_check(tree, tree_length, baseline, 0, work, ROOM, records, ROOM, output, ROOM, counts, 15) == 5, "too few counts are refused");
    expect(complexity_check(tree, 3, baseline, 0, work, ROOM, records, ROOM, output, ROOM, counts, 15) == 2, "the tree's refusals come first");
    expect(complexity_check(tree, tree_length, baseline, 0, work, ROOM, records, RECORD, output, ROOM, counts, 16) == 8, "one record too few is refused");
    expect(complexity_check(tree, tree_length, baseline, 0, work, ROOM, records, ROOM, output, 20, counts, 16) == 9, "a short output is refused");
    expect(memcmp(before, output, ROOM) == 0, "a refusal leaves the output");
}

int main(void) {
    blanking();
    checking();
    refusing();
    puts("calls: ok");
    return 0;
}
