/* check_files PLAN IMAGE: checks the APLX image in one file against the plan in another, both as they stand. Writes `accepted`; or
 * `refused N at P`, and for 30 a line that says what is wrong, for a fault of the plan one on standard error. The exit status is 0 for an
 * image that is accepted, 1 for one that is refused or a file that cannot be read. examples/check builds and calls it. */
#include <stdio.h>
#include <stdlib.h>

#include "reidhintsje.h"

typedef struct {
    uint8_t *bytes;
    size_t length;
} content;

/* All bytes of a file. */
static content read_file(const char *name) {
    content all = {NULL, 0};
    size_t room = 0;
    FILE *file = fopen(name, "rb");
    while (file && !ferror(file) && !feof(file)) {
        if (all.length == room) {
            room = 2 * room + 65536;
            uint8_t *more = realloc(all.bytes, room);
            if (!more) {
                break;
            }
            all.bytes = more;
        }
        all.length += fread(all.bytes + all.length, 1, room - all.length, file);
    }
    if (!file || !feof(file)) {
        fprintf(stderr, "%s: no such file, or it cannot be read\n", name);
        exit(1);
    }
    fclose(file);
    return all;
}

/* What is wrong with an image that is refused with 30 at this place. */
static void explain(content image, size_t place) {
    const size_t all = image.length / 16, entries = all < 256 ? all : 256;
    if (place < entries) {
        const uint8_t *at = image.bytes + 16 * place;
        if ((at[0] & at[1] & at[2] & at[3]) == 255) {
            printf("entry %zu is an end entry, but the plan is not at its end\n", place);
        } else {
            printf("entry %zu is not the next part, run or end of the plan\n", place);
        }
    } else if (entries == 0) {
        printf("no end word: the image has no whole entry of 16 bytes\n");
    } else {
        printf(entries == 1 ? "no end word in the only entry\n" : "no end word in the first %zu entries\n", entries);
    }
}

int main(int count, char **names) {
    uint64_t outcome[REIDHINTSJE_OUTCOME_NUMBERS];
    if (count != 3) {
        fprintf(stderr, "usage: check_files PLAN IMAGE\n");
        return 2;
    }
    const content plan = read_file(names[1]), image = read_file(names[2]);
    const uint32_t number = reidhintsje_aplx_check(plan.bytes, plan.length, image.bytes, image.length, outcome);
    if (number == 0) {
        printf("accepted\n");
        return 0;
    }
    printf("refused %u at %u\n", (unsigned)number, (unsigned)outcome[REIDHINTSJE_PLACE]);
    if (number == REIDHINTSJE_NOT_AS_PLANNED) {
        explain(image, (size_t)outcome[REIDHINTSJE_PLACE]);
    } else {
        fprintf(stderr, "the plan is refused\n");
    }
    return 1;
}
