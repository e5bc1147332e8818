/* Examines the image in the file that is named, as a box does that can lose power at any time: in slices, with a checkpoint after each of them, and
 * going on from what is read back out of that checkpoint. It prints the lines of the desk program: one for each path, then the verdict, or the refusal.
 * The exit status is 0 where lines were printed, a refusal included; 1 where the file or the output fails, 2 for wrong usage. */
#include <inttypes.h>
#include <stdio.h>
#include <string.h>

#include "bayekosh.h"

/* How many assignments a slice tries. */
#define BUDGET 1000

/* One byte more than an image may have, so that one that is too long is seen to be. */
static uint8_t image[BAYEKOSH_MOST_BYTES + 1];
static uint8_t buffer[BAYEKOSH_CHECKPOINT_HEAD + BAYEKOSH_MOST_BYTES];

/* What went wrong, to standard error. */
static int fail(const char *message) {
    fprintf(stderr, "%s\n", message);
    return 1;
}

/* A refusal, which is a whole answer. */
static int refuse(uint32_t number, size_t place) {
    printf("refused %" PRIu32 " at %zu\n", number, place);
    return 0;
}

/* Writes the examination down and reads it back: 1 if it comes back, with its image. */
static int kept(BayekoshStanding *examination, size_t length) {
    BayekoshWrittenAnswer written = bayekosh_write_checkpoint(*examination, image, length, buffer, sizeof buffer);
    BayekoshOpenedAnswer opened;
    BayekoshImagePart part;
    if (written.number != 0 || written.length != BAYEKOSH_CHECKPOINT_HEAD + length) return 0;
    opened = bayekosh_read_checkpoint(buffer, written.length);
    part = bayekosh_checkpoint_image(buffer, written.length);
    if (opened.number != 0 || part.length != length || memcmp(buffer + part.offset, image, length) != 0) return 0;
    *examination = opened.examination;
    return 1;
}

/* A line for each path. */
static int paths(size_t length) {
    BayekoshCountedAnswer counted = bayekosh_count_paths(image, length);
    size_t path;
    if (counted.number != 0) return fail("the image is accepted and refused");
    for (path = 0; path < counted.paths; path++) {
        BayekoshNumberedAnswer atoms = bayekosh_path_free_atoms(image, length, path);
        if (atoms.number != 0) return fail("a path that is counted is not there");
        printf("path %zu sigs %zu free %zu\n", path, atoms.sigs, atoms.frees);
    }
    return 0;
}

/* The line of the verdict. */
static int verdict(const BayekoshCheckedAnswer *end) {
    printf("verdict %" PRIu32 " reason %" PRIu32 " path %" PRIu32, end->verdict, end->reason, end->path);
    printf(" start %" PRIu32 " end %" PRIu32 " line %" PRIu32 " column %" PRIu32, end->start, end->end, end->line, end->column);
    printf(" mask %" PRIu32 " tried %" PRIu64 "\n", end->mask, end->total);
    return 0;
}

/* The whole examination of an image of that length. */
static int examine(size_t length) {
    BayekoshOpenedAnswer opened = bayekosh_start(image, length);
    BayekoshStanding examination = opened.examination;
    if (opened.number != 0) return refuse(opened.number, opened.place);
    if (paths(length) != 0) return 1;
    for (;;) {
        BayekoshSlicedAnswer sliced = bayekosh_slice(examination, image, length, BUDGET);
        if (sliced.said.number != 0) return fail("the examination does not fit its image");
        if (sliced.ended) return verdict(&sliced.said);
        examination = sliced.examination;
        if (!kept(&examination, length)) return fail("the checkpoint does not come back");
    }
}

/* Reads the file that is named, and examines what is in it. */
int main(int count, char **words) {
    FILE *file;
    size_t length;
    int bad;
    if (count != 2) {
        fprintf(stderr, "usage: example IMAGE\n");
        return 2;
    }
    file = fopen(words[1], "rb");
    if (file == NULL) return fail("the file cannot be opened");
    length = fread(image, 1, sizeof image, file);
    bad = ferror(file);
    fclose(file);
    if (bad) return fail("the file cannot be read");
    if (examine(length) != 0) return 1;
    return fflush(stdout) == 0 && !ferror(stdout) ? 0 : fail("the lines cannot be written");
}
