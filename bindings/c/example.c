/* example SHEET VERDICT LEFT: builds the sheet in one file and writes the two sheets to two others; prints
 * which types each type hangs on. Ends with 0 if the sheet is accepted, with 1 if it is refused, and with 2
 * if a file fails. */
#include "layout.h"

#include <inttypes.h>
#include <stdio.h>
#include <stdlib.h>
#include <string.h>

/* One byte more than a sheet may have, so that a longer file is refused as one. */
static uint8_t sheet[LAYOUT_SHEET_BYTES + 1];
static uint8_t verdict[LAYOUT_SHEET_BYTES];

static const char *const MEANING[14] = {
    "accepted",
    "too long, or not whole lines",
    "not a line",
    "a line out of order",
    "too many lines of this letter",
    "a number out of its range",
    "a name used twice",
    "a tag, keep or verdict that cannot be",
    "a name that leads back to itself",
    "a wrong count of type arguments",
    "a type of more than 1,024 nodes",
    "the verdict output is too short",
    "the left output is too short",
    "a pattern with a wrong count of parts",
};

static int put(const char *path, const uint8_t *bytes, size_t length)
{
    FILE *file = fopen(path, "wb");
    if (file == NULL)
        return -1;
    size_t written = fwrite(bytes, 1, length, file);
    return fclose(file) == 0 && written == length ? 0 : -1;
}

/* Prints for each declaration of an accepted sheet which ones it reaches. */
static void put_reach(size_t length)
{
    const char *names[LAYOUT_DECLARATIONS];
    int widths[LAYOUT_DECLARATIONS];
    size_t count = 0;
    for (size_t at = 0; at < length; at += LAYOUT_LINE_BYTES) {
        if (sheet[at] != 'D' && sheet[at] != 'I')
            continue;
        /* its first number is that of an N line, and N lines come first */
        names[count] = (const char *)sheet + LAYOUT_LINE_BYTES * atoi((const char *)sheet + at + 1) + 7;
        widths[count] = (int)strcspn(names[count], " \n");
        count++;
    }
    uint64_t sets[LAYOUT_DECLARATIONS * LAYOUT_SET_WORDS], answer[2];
    layout_reach_index(sheet, length, sets, answer);
    for (size_t i = 0; i < count; i++) {
        printf("%.*s reaches:", widths[i], names[i]);
        for (size_t j = 0; j < count; j++)
            if (sets[LAYOUT_SET_WORDS * i + j / 64] >> j % 64 & 1)
                printf(" %.*s", widths[j], names[j]);
        printf("\n");
    }
}

int main(int argc, char **argv)
{
    if (argc != 4) {
        fprintf(stderr, "usage: %s SHEET VERDICT LEFT\n", argv[0]);
        return 2;
    }
    FILE *file = fopen(argv[1], "rb");
    if (file == NULL) {
        perror(argv[1]);
        return 2;
    }
    size_t length = fread(sheet, 1, sizeof sheet, file);
    int failed = ferror(file);
    fclose(file);
    if (failed) {
        fprintf(stderr, "%s: cannot be read\n", argv[1]);
        return 2;
    }

    /* Resolved types are written out, so the left sheet can be longer than the sheet. Where an
     * output is too short the place is the length needed: try again with that. */
    size_t left_length = LAYOUT_SHEET_BYTES;
    uint8_t *left = malloc(left_length);
    uint64_t answer[5];
    for (;;) {
        if (left == NULL) {
            fprintf(stderr, "no memory\n");
            return 2;
        }
        layout_build_sized(sheet, length, verdict, sizeof verdict, left, left_length, answer);
        if (answer[0] != LAYOUT_LEFT_SHORT)
            break;
        left_length = (size_t)answer[1];
        free(left);
        left = malloc(left_length);
    }

    if (answer[0] != LAYOUT_ACCEPTED) {
        printf("refused: code %" PRIu64 ", place %" PRIu64 ": %s\n", answer[0], answer[1], MEANING[answer[0]]);
        int line = (answer[0] >= LAYOUT_FORM && answer[0] <= LAYOUT_SIZE) || answer[0] == LAYOUT_PARTS;
        if (line && (answer[1] + 1) * LAYOUT_LINE_BYTES <= length) {
            const char *at = (const char *)sheet + answer[1] * LAYOUT_LINE_BYTES;
            printf("%.31s\n", at);
            if (answer[0] == LAYOUT_VERDICT && at[0] == 'C' && memcmp(at + 13, "     0", 6) == 0)
                printf("no tag, as in verdict sheets from before there were tags: build the earlier units again\n");
        }
        free(left);
        return 1;
    }
    printf("accepted after %" PRIu64 " rounds: %" PRIu64 " bytes of verdicts, %" PRIu64 " bytes left\n",
           answer[2], answer[3], answer[4]);
    put_reach(length);
    failed = put(argv[2], verdict, (size_t)answer[3]) | put(argv[3], left, (size_t)answer[4]);
    free(left);
    if (failed) {
        fprintf(stderr, "the sheets cannot be written\n");
        return 2;
    }
    return 0;
}
