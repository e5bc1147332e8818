/* Prints how the answers of bayekosh.h are laid out: a line for each struct with its size, and for each field with its offset and its size. */
#include <stdio.h>

#include "bayekosh.h"

#define STRUCT(name) printf("%s %zu\n", #name, sizeof(Bayekosh##name))
#define FIELD(name, field) printf("%s.%s %zu %zu\n", #name, #field, offsetof(Bayekosh##name, field), sizeof(((Bayekosh##name *)0)->field))

/* What says where an examination stands, or where an image does. */
static void places(void) {
    STRUCT(Standing);
    FIELD(Standing, phase);
    FIELD(Standing, path);
    FIELD(Standing, mask);
    FIELD(Standing, count);
    STRUCT(OpenedAnswer);
    FIELD(OpenedAnswer, number);
    FIELD(OpenedAnswer, place);
    FIELD(OpenedAnswer, examination);
    STRUCT(WrittenAnswer);
    FIELD(WrittenAnswer, number);
    FIELD(WrittenAnswer, place);
    FIELD(WrittenAnswer, length);
    FIELD(WrittenAnswer, examination);
    STRUCT(ImagePart);
    FIELD(ImagePart, offset);
    FIELD(ImagePart, length);
}

/* The answers about paths. */
static void counts(void) {
    STRUCT(CountedAnswer);
    FIELD(CountedAnswer, number);
    FIELD(CountedAnswer, place);
    FIELD(CountedAnswer, paths);
    STRUCT(NumberedAnswer);
    FIELD(NumberedAnswer, number);
    FIELD(NumberedAnswer, place);
    FIELD(NumberedAnswer, sigs);
    FIELD(NumberedAnswer, frees);
    STRUCT(SatisfiableAnswer);
    FIELD(SatisfiableAnswer, number);
    FIELD(SatisfiableAnswer, place);
    FIELD(SatisfiableAnswer, found);
    FIELD(SatisfiableAnswer, mask);
}

/* The answers that tell an end. */
static void verdicts(void) {
    STRUCT(CheckedAnswer);
    FIELD(CheckedAnswer, number);
    FIELD(CheckedAnswer, place);
    FIELD(CheckedAnswer, verdict);
    FIELD(CheckedAnswer, reason);
    FIELD(CheckedAnswer, path);
    FIELD(CheckedAnswer, start);
    FIELD(CheckedAnswer, end);
    FIELD(CheckedAnswer, line);
    FIELD(CheckedAnswer, column);
    FIELD(CheckedAnswer, mask);
    FIELD(CheckedAnswer, total);
    STRUCT(SlicedAnswer);
    FIELD(SlicedAnswer, ended);
    FIELD(SlicedAnswer, said);
    FIELD(SlicedAnswer, examination);
}

/* Prints them all. */
int main(void) {
    places();
    counts();
    verdicts();
    return fflush(stdout) == 0 && !ferror(stdout) ? 0 : 1;
}
