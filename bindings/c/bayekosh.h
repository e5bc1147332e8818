/* The examiner for C: the judge of an offline signing box. It examines every path of a spending contract and says whether a path can pay out
 * without a valid signature, or whether no path can pay out at all. The library is crates/exports/out/libexports.a, which bindings/library makes
 * of crates/exports for x86-64 Linux; the contracts that are proved of its calls stand there. It needs memcpy and memset, and no other function.
 *
 * Bytes. An image, a checkpoint and a buffer are each a pointer and a length. They may hold any bytes: nothing is asked of them, and what is wrong
 * with them comes back as a refusal. The pointer must not be NULL, even where the length is 0, and that many bytes must be there. The buffer of
 * bayekosh_write_checkpoint must not overlap its image. Nothing is kept of a pointer after the call.
 *
 * State. The library has none: no variable outlives a call, so it is re-entrant, and calls may be made from several threads at once. It allocates
 * nothing, and makes no call to the system. An examination is a value of four numbers, handed over and handed back.
 *
 * Answers. They are plain numbers; a place or a verdict within one is a struct of its own, of plain numbers too.
 *
 * Checkpoints. A checkpoint is trusted: one that is well formed and was made by another is taken as it stands. All that is asked of it is that its place
 * fits its image; whether the assignments before that place were tried, nothing in it shows. So what keeps it must be as safe as what shows the verdict.
 *
 * Stack. BAYEKOSH_STACK bytes of stack are enough for a call. That is measured, not proved: bindings/c/stack.c makes every call on a painted stack, over
 * R1, 128 paths, the deepest ifs and expressions, each greatest size, and random images. The most that any call took was 65,080 bytes, the two queries
 * and the count of atoms; the other calls took at most 42,568. bindings/run measures again and fails if the figure is not half as much again.
 *
 * Refusals. Every answer that can be a refusal has `number` and `place`. The number is 0 where nothing is refused, and then the place is 0 too. A
 * refusal has zeros in every other field but an examination that was lent, which comes back unchanged. Numbers and places:
 *
 *   1  fewer than 3 bytes, or not `BVN`                            0
 *   2  version is not 1                                            3
 *   3  image ends inside a field                                   the head field, or the item's tag
 *   4  unknown tag (a statement's where an expression is due, or   5 for the mode, or the item's tag
 *      the reverse, counts so), op, flag, mode or boolean
 *   5  level too deep                                              item's tag
 *   6  too many statements or expressions                          item's tag
 *   7  bytes left over                                             first such byte
 *   8  image too long                                              0
 *   9  more than 128 paths                                         0
 *  10  literal arithmetic leaves 64 bits                           tag of that operation
 *  11  checkpoint unfit                                            0 head, 3 version, 5 place fields
 *  12  lent buffer too short for a checkpoint                      0
 *  13  path number not below the path count                        0
 *
 * Order: 8, 1, 2, then reading order; then 7, 9, 10. A call lent an examination and an image tests the image first, then whether the place fits it (11
 * at 5 if not), then 12 or 13. A place is an offset in the image, also where the image stands in a checkpoint; that of 11 is one in the checkpoint.
 */
#ifndef BAYEKOSH_H
#define BAYEKOSH_H

#include <stddef.h>
#include <stdint.h>

#ifdef __cplusplus
extern "C" {
#endif

/* The greatest size of an image, in bytes. A longer one is refused with 8, so one byte more of it is enough to be told so. */
#define BAYEKOSH_MOST_BYTES 32768

/* How many bytes of a checkpoint stand before its image. */
#define BAYEKOSH_CHECKPOINT_HEAD 16

/* How many bytes of stack are enough for a call. */
#define BAYEKOSH_STACK 131072

/* ---- the answers */

/* Where an examination stands. */
typedef struct {
    uint8_t phase;  /* 0 security, 1 liveness */
    uint16_t path;  /* the path; in phase 1 it is the path count after the last one */
    uint32_t mask;  /* the next mask of that path */
    uint64_t count; /* how many assignments were tried before it */
} BayekoshStanding;

/* How many paths an image has. */
typedef struct {
    uint32_t number; /* the refusal, 0 if none */
    size_t place;    /* its place */
    size_t paths;    /* the path count, 0 to 128 */
} BayekoshCountedAnswer;

/* The atoms of a path. */
typedef struct {
    uint32_t number; /* the refusal, 0 if none */
    size_t place;    /* its place */
    size_t sigs;     /* Sig atoms: checksigs, those at equal locations counted once */
    size_t frees;    /* Free atoms: one for each variable occurrence, and for each other expression with no value of its own */
} BayekoshNumberedAnswer;

/* Whether a path can be satisfied. */
typedef struct {
    uint32_t number; /* the refusal, 0 if none */
    size_t place;    /* its place */
    uint32_t found;  /* 0 never, 1 by the mask, 2 the path has more atoms than are searched */
    uint32_t mask;   /* the first mask that satisfies, where found is 1 */
} BayekoshSatisfiableAnswer;

/* An examination to begin with, or to go on with. */
typedef struct {
    uint32_t number;              /* the refusal, 0 if none */
    size_t place;                 /* its place */
    BayekoshStanding examination; /* where it stands; zeros on refusal */
} BayekoshOpenedAnswer;

/* The end of an examination. */
typedef struct {
    uint32_t number;  /* the refusal, 0 if none */
    size_t place;     /* its place */
    uint32_t verdict; /* 0 Ok, 1 NoSigRequired, 2 UselessSig, 3 DeadPath */
    uint32_t reason;  /* 1 more than 20 Free atoms, 2 the mask satisfies with all Sig false; 0 otherwise */
    uint32_t path;    /* the failing path; 0 at Ok and DeadPath */
    uint32_t start;   /* the location of the failing path's return, at DeadPath that of path 0; zeros at Ok */
    uint32_t end;
    uint32_t line;
    uint32_t column;
    uint32_t mask;  /* where reason is 2: the first mask that satisfies, bit j being Free j */
    uint64_t total; /* how many assignments were tried, the satisfying one included; at most 671088640 */
} BayekoshCheckedAnswer;

/* What a slice says, and the examination. A "not yet" is number 0 and ended 0, and has zeros in every field but the examination. */
typedef struct {
    uint32_t ended;               /* 1 where the examination came to its end, which `said` then tells; 0 otherwise */
    BayekoshCheckedAnswer said;   /* the refusal, or the end */
    BayekoshStanding examination; /* at its new place; as it was on refusal */
} BayekoshSlicedAnswer;

/* What is said of a checkpoint that is written. */
typedef struct {
    uint32_t number;              /* the refusal, 0 if none */
    size_t place;                 /* its place */
    size_t length;                /* how many bytes were written */
    BayekoshStanding examination; /* as it was */
} BayekoshWrittenAnswer;

/* A part of the bytes that were handed over: it begins at the offset and has that length. */
typedef struct {
    size_t offset;
    size_t length; /* 0, with offset 0, where there is none */
} BayekoshImagePart;

/* ---- an image */

/* How many paths an image has. */
BayekoshCountedAnswer bayekosh_count_paths(const uint8_t *image, size_t image_length);

/* How many Sig and Free atoms a path has; paths are numbered from 0. */
BayekoshNumberedAnswer bayekosh_path_free_atoms(const uint8_t *image, size_t image_length, size_t path);

/* Whether a path can be satisfied with every Sig atom false. Bit j of the mask is Free j. More than 20 Free atoms are not searched. */
BayekoshSatisfiableAnswer bayekosh_satisfiable_without_signatures(const uint8_t *image, size_t image_length, size_t path);

/* Whether a path can be satisfied. Sig i stands at bit i of the mask, Free j above them. More than 22 atoms are not searched. */
BayekoshSatisfiableAnswer bayekosh_satisfiable_at_all(const uint8_t *image, size_t image_length, size_t path);

/* ---- an examination */

/* An examination of an image, at its first place. */
BayekoshOpenedAnswer bayekosh_start(const uint8_t *image, size_t image_length);

/* At most `budget` assignments, from the examination's place on. An end that needs no trial costs no budget. An end by a trial leaves the place before
 * that trial, so another slice with budget 1 or more gives the same end, and one with budget 0 says "not yet". */
BayekoshSlicedAnswer bayekosh_slice(BayekoshStanding examination, const uint8_t *image, size_t image_length, uint64_t budget);

/* The unstopped run: the verdict, whatever it takes. */
BayekoshCheckedAnswer bayekosh_check_necessity(const uint8_t *image, size_t image_length);

/* The examination's checkpoint, to the front of the buffer: BAYEKOSH_CHECKPOINT_HEAD bytes, then the whole image. The rest of the buffer is left
 * unchanged, on refusal all of it. */
BayekoshWrittenAnswer bayekosh_write_checkpoint(BayekoshStanding examination, const uint8_t *image, size_t image_length, uint8_t *buffer,
                                                size_t buffer_length);

/* ---- a checkpoint */

/* The examination of which the bytes are a checkpoint. The length is the checkpoint's own: what stands behind it in a buffer is refused with 7. */
BayekoshOpenedAnswer bayekosh_read_checkpoint(const uint8_t *bytes, size_t bytes_length);

/* The image of which the bytes are a checkpoint: a part of them, not a copy; empty exactly where bayekosh_read_checkpoint refuses. */
BayekoshImagePart bayekosh_checkpoint_image(const uint8_t *bytes, size_t bytes_length);

#ifdef __cplusplus
}
#endif

#endif
