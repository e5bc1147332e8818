/* How much stack a call takes: reads a stream of images, each after a 32-bit big-endian length, makes every call of bayekosh.h for each of them on a
 * stack of its own that is painted first, and prints for each call the most bytes that lost their paint, last the most of all and the count of images. */
#define _XOPEN_SOURCE 600
#include <stdio.h>
#include <string.h>
#include <ucontext.h>

#include "bayekosh.h"

#define AREA 262144
#define PAINT 0xa5
#define BUDGET 1000

enum { COUNT, ATOMS, WITHOUT, AT_ALL, START, SLICE, CHECK, WRITE, READ, PART, CALLS };
static const char *const names[CALLS] = {"count_paths", "path_free_atoms", "satisfiable_without_signatures", "satisfiable_at_all", "start",
                                         "slice", "check_necessity", "write_checkpoint", "read_checkpoint", "checkpoint_image"};
static size_t most[CALLS];

static uint8_t area[AREA];
static ucontext_t here, there;

static uint8_t image[BAYEKOSH_MOST_BYTES + 1];
static uint8_t buffer[BAYEKOSH_CHECKPOINT_HEAD + BAYEKOSH_MOST_BYTES];
static size_t length, path, written, paths;
static BayekoshStanding examination;
static int which;

/* One call, on the painted stack. */
static void call(void) {
    switch (which) {
    case COUNT: paths = bayekosh_count_paths(image, length).paths; break;
    case ATOMS: bayekosh_path_free_atoms(image, length, path); break;
    case WITHOUT: bayekosh_satisfiable_without_signatures(image, length, path); break;
    case AT_ALL: bayekosh_satisfiable_at_all(image, length, path); break;
    case START: examination = bayekosh_start(image, length).examination; break;
    case SLICE: examination = bayekosh_slice(examination, image, length, BUDGET).examination; break;
    case CHECK: bayekosh_check_necessity(image, length); break;
    case WRITE: written = bayekosh_write_checkpoint(examination, image, length, buffer, sizeof buffer).length; break;
    case READ: bayekosh_read_checkpoint(buffer, written); break;
    default: bayekosh_checkpoint_image(buffer, written); break;
    }
}

/* Makes a call, sees how far down the paint is gone, and paints that anew. */
static int measure(int wanted) {
    size_t left = 0;
    which = wanted;
    if (getcontext(&there) != 0) return 0;
    there.uc_stack.ss_sp = area;
    there.uc_stack.ss_size = AREA;
    there.uc_link = &here;
    makecontext(&there, call, 0);
    if (swapcontext(&here, &there) != 0) return 0;
    while (left < AREA && area[left] == PAINT) left++;
    if (most[wanted] < AREA - left) most[wanted] = AREA - left;
    memset(area + left, PAINT, AREA - left);
    return 1;
}

/* The calls from one to another. */
static int calls(int first, int last) {
    int next;
    for (next = first; next <= last; next++)
        if (!measure(next)) return 0;
    return 1;
}

/* Every call of one image: those about a path with each path number, and with the first that no path has. */
static int all_calls(void) {
    if (!measure(COUNT)) return 0;
    for (path = 0; path <= paths; path++)
        if (!calls(ATOMS, AT_ALL)) return 0;
    return calls(START, CALLS - 1);
}

/* The next image of the stream: 1, or 0 at its end; -1 where it ends within an image. Of one that is too long no more is kept than shows it. */
static int next_image(void) {
    uint8_t head[4];
    size_t got = fread(head, 1, 4, stdin), rest;
    if (got != 4) return got == 0 ? 0 : -1;
    rest = (size_t)head[0] << 24 | (size_t)head[1] << 16 | (size_t)head[2] << 8 | head[3];
    length = rest < sizeof image ? rest : sizeof image;
    if (fread(image, 1, length, stdin) != length) return -1;
    for (rest -= length; rest > 0; rest--)
        if (getchar() == EOF) return -1;
    return 1;
}

/* What was measured. */
static void report(size_t images) {
    size_t top = 0;
    int at;
    for (at = 0; at < CALLS; at++) {
        printf("%s %zu\n", names[at], most[at]);
        if (top < most[at]) top = most[at];
    }
    printf("most %zu images %zu\n", top, images);
}

/* Measures the calls over every image of the stream. */
int main(void) {
    size_t images = 0;
    int more;
    memset(area, PAINT, AREA);
    while ((more = next_image()) == 1) {
        if (!all_calls()) return 1;
        images++;
    }
    report(images);
    return more == 0 && fflush(stdout) == 0 ? 0 : 1;
}
