/* Replays a list of answers: for each call of the list its number and every byte of every buffer. tests/oracle/README.md says how a list is
   written. Exit status: 0 all as listed, 1 some not, 2 the list cannot be read. */
#include "complexity.h"

#include <stdarg.h>
#include <stdio.h>
#include <stdlib.h>
#include <string.h>

enum { GUARD = 24, FILLS = 2, MOST_SHOWN = 10 };

/* The lines that hold until another of the same name. */
enum line { INPUT, BASELINE, LENT, WORK, RECORDS, OUTPUT, COUNTS, LINES };
static const char *const line_names[LINES] = {"input", "baseline", "lent", "work", "records", "output", "counts"};
static const char *lines[LINES] = {"", "", "0 0 0 0", "", "", "", ""};

static size_t line_number, calls, differences;

_Noreturn static void unreadable(const char *what) {
    fprintf(stderr, "replay: line %zu: %s\n", line_number, what);
    exit(2);
}

static void differs(const char *format, ...) {
    if (++differences > MOST_SHOWN) {
        return;
    }
    va_list rest;
    va_start(rest, format);
    fprintf(stderr, "replay: line %zu: ", line_number);
    vfprintf(stderr, format, rest);
    fputc('\n', stderr);
    va_end(rest);
}

static void *allocated(size_t size) {
    void *room = malloc(size + 1);
    if (room == NULL) {
        unreadable("no memory");
    }
    return room;
}

/* ---- The pieces of a line ---- */

static size_t decimal(const char **place) {
    size_t n = 0;
    if (**place < '0' || **place > '9') {
        unreadable("a number is missing");
    }
    for (; **place >= '0' && **place <= '9'; ++*place) {
        n = 10 * n + (size_t)(**place - '0');
    }
    return n;
}

static void expect(const char **place, char mark) {
    if (**place != mark) {
        unreadable("a mark is missing");
    }
    ++*place;
}

/* A number, with the step that it grows by at each turn. */
static size_t stepped(const char **place, size_t turn) {
    size_t n = decimal(place);
    if (**place == '+') {
        ++*place;
        n += turn * decimal(place);
    }
    return n;
}

static uint8_t hexadecimal(char c) {
    const char *digits = "0123456789abcdef", *at = strchr(digits, c);
    if (c == 0 || at == NULL) {
        unreadable("a hexadecimal digit is missing");
    }
    return (uint8_t)(at - digits);
}

static uint8_t escaped(const char **place) {
    char c = *(*place)++;
    switch (c) {
    case 'n': return '\n';
    case 't': return '\t';
    case 'r': return '\r';
    case '\\':
    case '"': return (uint8_t)c;
    case 'x': {
        uint8_t high = hexadecimal(*(*place)++), low = hexadecimal(*(*place)++);
        return (uint8_t)(high << 4 | low);
    }
    default: unreadable("no such escape");
    }
}

static size_t text_piece(const char **place, uint8_t *to) {
    size_t n = 0;
    while (**place != '"') {
        if (**place == 0) {
            unreadable("a text does not end");
        }
        char c = *(*place)++;
        uint8_t byte = c == '\\' ? escaped(place) : (uint8_t)c;
        if (to != NULL) {
            to[n] = byte;
        }
        n++;
    }
    ++*place;
    return n;
}

/* A number of 4 bytes, the lowest first. */
static size_t number_piece(const char **place, uint8_t *to, size_t turn) {
    size_t n = stepped(place, turn);
    for (size_t k = 0; to != NULL && k < 4; k++) {
        to[k] = (uint8_t)(n >> 8 * k & 255);
    }
    return 4;
}

/* A number of decimal digits, as many as its width says. */
static size_t digits_piece(const char **place, uint8_t *to, size_t turn) {
    size_t width = decimal(place);
    expect(place, ':');
    size_t n = stepped(place, turn);
    for (size_t k = width; to != NULL && k > 0; k--, n /= 10) {
        to[k - 1] = (uint8_t)('0' + n % 10);
    }
    return width;
}

/* The bytes that the pieces up to the line's end or a bracket's describe; only their count where `to` is NULL. Bytes that remain are passed over. */
static size_t pieces(const char **place, uint8_t *to, size_t turn) {
    size_t n = 0;
    while (**place != 0 && **place != ')') {
        uint8_t *here = to == NULL ? NULL : to + n;
        char mark = **place;
        if (mark >= '0' && mark <= '9') {
            size_t turns = decimal(place);
            expect(place, '*');
            expect(place, '(');
            const char *from = *place;
            for (size_t k = 0; k < turns; k++) {
                *place = from;
                n += pieces(place, to == NULL ? NULL : to + n, k);
            }
            expect(place, ')');
            continue;
        }
        ++*place;
        switch (mark) {
        case ' ': break;
        case '"': n += text_piece(place, here); break;
        case '#': n += number_piece(place, here, turn); break;
        case '%': n += digits_piece(place, here, turn); break;
        case '=': n += decimal(place); break;
        default: unreadable("no such piece");
        }
    }
    return n;
}

static size_t described(const char *line, uint8_t *to) {
    size_t n = pieces(&line, to, 0);
    if (*line != 0) {
        unreadable("a bracket too many");
    }
    return n;
}

/* ---- What a call is given ---- */

/* Which of the lines the call has. */
static int has(const char *call, enum line which) {
    int blank = strcmp(call, "blank") == 0;
    switch (which) {
    case INPUT: return 1;
    case BASELINE: return strcmp(call, "check") == 0;
    case OUTPUT: return strcmp(call, "scan") != 0;
    default: return !blank;
    }
}

/* What stands behind an input: read past the end, it would change the answer. */
static const char behind[] = "'\"*/})]>,;fn a(){}\n\t1\t1\n";

struct input {
    enum line line;
    uint8_t *at, *before;
    size_t size;
};

static struct input given(const char *call, enum line which) {
    const char *line = has(call, which) ? lines[which] : "";
    struct input in = {which, NULL, NULL, described(line, NULL)};
    in.at = allocated(in.size + sizeof behind);
    in.before = allocated(in.size + sizeof behind);
    described(line, in.at);
    memcpy(in.at + in.size, behind, sizeof behind);
    memcpy(in.before, in.at, in.size + sizeof behind);
    return in;
}

static void keeps(struct input *in, const char *call) {
    if (memcmp(in->at, in->before, in->size + sizeof behind) != 0) {
        differs("%s: the %s is changed", call, line_names[in->line]);
    }
    free(in->at);
    free(in->before);
}

/* A buffer between guards, all of it filled with a pattern in which neighbours differ. */
struct buffer {
    enum line line;
    uint8_t *whole, *at, *expected;
    size_t size, whole_size;
};

static struct buffer lent(enum line line, size_t size, uint8_t fill) {
    size_t before = GUARD + size % 8;
    struct buffer b = {line, NULL, NULL, NULL, size, before + size + GUARD};
    b.whole = allocated(b.whole_size);
    b.expected = allocated(b.whole_size);
    for (size_t k = 0; k < b.whole_size; k++) {
        b.whole[k] = (uint8_t)(37 * k) ^ (uint8_t)(17 * (uint8_t)line) ^ fill;
    }
    b.at = b.whole + before;
    memcpy(b.expected, b.whole, b.whole_size);
    return b;
}

/* Every byte, those around the buffer and those that remain included. */
static void answers(struct buffer *b, const char *call) {
    const char *line = has(call, b->line) ? lines[b->line] : "";
    size_t before = (size_t)(b->at - b->whole);
    if (described(line, NULL) > b->size) {
        unreadable("more bytes than are lent");
    }
    described(line, b->expected + before);
    for (size_t k = 0; k < b->whole_size; k++) {
        if (b->whole[k] != b->expected[k]) {
            long at = (long)k - (long)before;
            differs("%s: %s byte %ld of %zu is %u, not %u", call, line_names[b->line], at, b->size, b->whole[k], b->expected[k]);
            break;
        }
    }
    free(b->whole);
    free(b->expected);
}

/* ---- The calls ---- */

static uint32_t called(const char *call, const struct input *in, const struct input *base, const struct buffer b[LINES]) {
    const struct buffer w = b[WORK], r = b[RECORDS], o = b[OUTPUT], c = b[COUNTS];
    if (strcmp(call, "blank") == 0) {
        return complexity_blank(in->at, in->size, o.at, o.size);
    }
    if (strcmp(call, "scan") == 0) {
        return complexity_scan(in->at, in->size, w.at, w.size, r.at, r.size, c.at, c.size);
    }
    if (strcmp(call, "check") == 0) {
        return complexity_check(in->at, in->size, base->at, base->size, w.at, w.size, r.at, r.size, o.at, o.size, c.at, c.size);
    }
    if (strcmp(call, "update") == 0) {
        return complexity_update(in->at, in->size, w.at, w.size, r.at, r.size, o.at, o.size, c.at, c.size);
    }
    if (strcmp(call, "report") == 0) {
        return complexity_report(in->at, in->size, w.at, w.size, r.at, r.size, o.at, o.size, c.at, c.size);
    }
    unreadable("no such line");
}

static void replay(const char *call, const char *rest, uint8_t fill) {
    struct input in = given(call, INPUT), base = given(call, BASELINE);
    struct buffer b[LINES];
    const char *sizes = lines[LENT];
    for (enum line k = WORK; k <= COUNTS; k++) {
        while (*sizes == ' ') {
            sizes++;
        }
        b[k] = lent(k, decimal(&sizes), fill);
    }
    size_t number = decimal(&rest);
    uint32_t answered = called(call, &in, &base, b);
    if (answered != number) {
        differs("%s: number %u, not %zu", call, (unsigned)answered, number);
    }
    for (enum line k = WORK; k <= COUNTS; k++) {
        answers(&b[k], call);
    }
    keeps(&in, call);
    keeps(&base, call);
}

/* ---- The list ---- */

static char *text_of(const char *path) {
    FILE *file = fopen(path, "rb");
    if (file == NULL || fseek(file, 0, SEEK_END) != 0) {
        unreadable("the list cannot be opened");
    }
    long size = ftell(file);
    rewind(file);
    char *text = allocated((size_t)size);
    if (fread(text, 1, (size_t)size, file) != (size_t)size) {
        unreadable("the list cannot be read");
    }
    fclose(file);
    text[size] = 0;
    return text;
}

/* A line that holds from here on, or a call. */
static void take(const char *name, const char *rest) {
    for (enum line k = INPUT; k < LINES; k++) {
        if (strcmp(name, line_names[k]) == 0) {
            lines[k] = rest;
            return;
        }
    }
    for (uint8_t fill = 0; fill < FILLS; fill++) {
        replay(name, rest, fill == 0 ? 0 : 255);
    }
    calls++;
}

int main(int count, char *arguments[]) {
    if (count != 2) {
        unreadable("replay LIST");
    }
    char *text = text_of(arguments[1]), *end = NULL;
    int ended = 0;
    for (char *line = text; *line != 0 && !ended; line = end + 1) {
        line_number++;
        end = strchr(line, '\n');
        char *space = strchr(line, ' ');
        if (end == NULL || space == NULL || space > end) {
            unreadable("a line without a name, or cut off");
        }
        *end = *space = 0;
        ended = strcmp(line, "end") == 0;
        if (!ended) {
            take(line, space + 1);
        } else if (strtoull(space + 1, NULL, 10) != calls || end[1] != 0) {
            unreadable("the list does not have the calls that its last line counts");
        }
    }
    if (!ended) {
        unreadable("the list has no last line");
    }
    free(text);
    if (differences > 0) {
        fprintf(stderr, "replay: %zu differences in %zu calls\n", differences, calls);
        return 1;
    }
    printf("replay: %zu calls answer as the original does\n", calls);
    return 0;
}
