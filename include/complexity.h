/* The calls of libcomplexity.a. Each slice is a pointer and a length; a length of 0 may come with any pointer that is not NULL. Slices that are
   written must not overlap others.

   Each call returns a number:
     0  success
     1  tree, or text to blank, over 16,777,216 bytes
     2  the tree's layout or its limits are broken (1,024 files, paths of 1 to 1,024 bytes)
     3  a path has a tab or LF, starts with #, is not UTF-8, or does not rise
     4  a text is not UTF-8
     5  work shorter than the tree, blanking's output shorter than its text, or too few bytes for the counts
     7  baseline over 33,554,432 bytes
     8  more functions than 8,192 or than the records lent have room for (32 bytes each)
     9  output shorter than the listing
   The first that applies in this order is returned. With 1 to 7 every buffer stays as it was. With 8, work is blanked and the records hold as many
   first records as they have room for. With 9, work and records are as on success. With every refusal output and counts stay as they were.

   On success work holds the blanked texts at their places in the tree, records hold one record for each function, output begins with the listing
   and counts begin with the counts; what stands beyond remains. Records and counts are unsigned numbers of 4 bytes, the lowest first.

   A tree: the number of files; for each file the offset and length of its path and of its text, 4 bytes each; then path and text of each file, one
   after another without gaps. Paths rise in byte order, where / counts below every other byte.
   A record: file number, start of the name in the tree, its length, line, lines, cyclomatic number, nesting, parameters.

   No call takes memory beside what is lent. complexity_check uses some 235 KB of stack, complexity_update, complexity_report and
   complexity_scan some 215 KB, complexity_blank less than 5 KB. */
#ifndef COMPLEXITY_H
#define COMPLEXITY_H

#include <stddef.h>
#include <stdint.h>

#ifdef __cplusplus
extern "C" {
#endif

/* The text with strings, character literals and comments blanked: each byte is the text's or a space, and every LF stays at its place. */
uint32_t complexity_blank(const uint8_t *text, size_t text_length, uint8_t *output, size_t output_length);

/* The records of a tree's functions. Counts, 4 bytes: functions. */
uint32_t complexity_scan(const uint8_t *tree, size_t tree_length, uint8_t *work, size_t work_length, uint8_t *records, size_t records_length,
                         uint8_t *counts, size_t counts_length);

/* What got worse against a baseline. Counts, 16 bytes: bytes written, functions, regressions, stale entries. */
uint32_t complexity_check(const uint8_t *tree, size_t tree_length, const uint8_t *baseline, size_t baseline_length, uint8_t *work,
                          size_t work_length, uint8_t *records, size_t records_length, uint8_t *output, size_t output_length,
                          uint8_t *counts, size_t counts_length);

/* The baseline of a tree. Counts, 12 bytes: bytes written, functions, functions recorded. */
uint32_t complexity_update(const uint8_t *tree, size_t tree_length, uint8_t *work, size_t work_length, uint8_t *records,
                           size_t records_length, uint8_t *output, size_t output_length, uint8_t *counts, size_t counts_length);

/* The report: counts, mean, the functions over the limits, the heaviest files. Counts, 8 bytes: bytes written, functions. */
uint32_t complexity_report(const uint8_t *tree, size_t tree_length, uint8_t *work, size_t work_length, uint8_t *records,
                           size_t records_length, uint8_t *output, size_t output_length, uint8_t *counts, size_t counts_length);

#ifdef __cplusplus
}
#endif

#endif
