/* The recipe stage written a second time, from docs/ alone, to compare the proved code with. */
#ifndef MODEL_H
#define MODEL_H

#include <stddef.h>
#include <stdint.h>

enum model_rule { LEAST_VARIANCE, LEAST_RANGE };

/* What a run answers: 0 with the image as ranks, or a refusal's number. The planes are those of a recipe that is right. */
typedef struct {
    uint32_t number;
    int planes;
    int32_t *image; /* width x height ranks where number is 0, to be freed; else null */
} model_answer;

/* Runs a recipe on a frame of ranks, 0 to top. */
model_answer model_run(int32_t top, enum model_rule rule, const uint8_t *recipe, size_t recipe_length, size_t width,
                       size_t height, const int32_t *frame, size_t frame_length, size_t block_length,
                       size_t output_length);

/* What the check of a recipe answers for levels with ranks: 0 with its sheet, or a refusal's number. */
typedef struct {
    uint32_t number;
    int planes, reach, marks; /* marks as bits, B D K T S W from the lowest up */
} model_sheet;

model_sheet model_check(const uint8_t *recipe, size_t recipe_length);

#endif
