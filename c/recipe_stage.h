/*
 * The recipe stage, one call for a whole run: a recipe is checked and run on one frame. docs/CONTROLLER.md says what is promised.
 *
 * Link crates/controller/out/libcontroller.a, which `rt lib` makes in crates/controller. Nothing is allocated and nothing is
 * kept from one call to the next.
 */
#ifndef RECIPE_STAGE_H
#define RECIPE_STAGE_H

#include <stddef.h>
#include <stdint.h>

#ifdef __cplusplus
extern "C" {
#endif

/* What a call returns: 0, or why it was refused. Checks come in this order; the first that fails is told. */
enum recipe_stage_number {
    RECIPE_STAGE_DONE = 0,            /* the image is in the output */
    RECIPE_STAGE_SHUT = 1,            /* width or height is not 1 to 256, or the block is shorter than 3 x width x height */
    RECIPE_STAGE_BAD_LENGTH = 11,     /* the recipe is not 8 to 512 bytes long, or no multiple of 8 */
    RECIPE_STAGE_UNKNOWN_KIND = 12,   /* 12 to 17 record by record: a kind that is not 1 to 12 */
    RECIPE_STAGE_NOT_ZERO = 13,       /* a byte that is to be zero is not */
    RECIPE_STAGE_BAD_ELEMENT = 14,    /* an element that is empty, or has one of bits 25 to 31 */
    RECIPE_STAGE_UNRANKED = 15,       /* a step that wants ranks; never here, grey levels and heights have them */
    RECIPE_STAGE_TOO_FEW_PLANES = 16, /* the stack has fewer planes than the step wants */
    RECIPE_STAGE_FIFTH_PLANE = 17,    /* a frame would be the fifth plane */
    RECIPE_STAGE_PLANES_LEFT = 18,    /* more than one plane is left at the end */
    RECIPE_STAGE_SMALL_BLOCK = 19,    /* the block is shorter than (planes + 2) x width x height */
    RECIPE_STAGE_WRONG_LENGTH = 20    /* the frame or the output is not width x height long */
};

/* The marks of a sheet, which docs/SHEET.md explains. */
enum recipe_stage_mark {
    RECIPE_STAGE_NEVER_BRIGHTER = 1, /* B */
    RECIPE_STAGE_NEVER_DARKER = 2,   /* D */
    RECIPE_STAGE_ORDER_KEPT = 4,     /* K */
    RECIPE_STAGE_ORDER_TURNED = 8,   /* T */
    RECIPE_STAGE_SETTLES = 16,       /* S */
    RECIPE_STAGE_WITHIN = 32         /* W */
};

/* Levels of the block that serve every recipe: four planes at most, the frame's and the scratch plane. */
#define RECIPE_STAGE_BLOCK(width, height) ((size_t)6 * (width) * (height))

/*
 * These four run a recipe. They take the same arguments:
 *
 *   recipe, recipe_length   the recipe, in bytes
 *   width, height           columns and rows of the frame
 *   frame, frame_length     the frame, row by row from the top, in levels
 *   block, block_length     memory to work in, in levels; what it holds before does not matter
 *   output, output_length   where the image goes, row by row from the top, in levels
 *
 * Lengths in levels count elements and not bytes. Pointers are not null, also where the length is 0, are aligned for
 * their type and stay valid for the call. Block and output overlap nothing else; recipe and frame may overlap.
 *
 * On 0 the output is the recipe's image of the frame, and the block is changed within its first
 * (planes + 2) x width x height levels only. On any other number block and output are as they were.
 */

/* Grey levels, 0 to 255. Selecting goes by least variance. */
uint32_t recipe_stage_grey_variance(const uint8_t *recipe, size_t recipe_length, size_t width, size_t height,
                                    const uint8_t *frame, size_t frame_length, uint8_t *block, size_t block_length,
                                    uint8_t *output, size_t output_length);

/* Grey levels, 0 to 255. Selecting goes by least range. */
uint32_t recipe_stage_grey_range(const uint8_t *recipe, size_t recipe_length, size_t width, size_t height,
                                 const uint8_t *frame, size_t frame_length, uint8_t *block, size_t block_length,
                                 uint8_t *output, size_t output_length);

/* Heights, -32,768 to 32,767. Selecting goes by least variance. */
uint32_t recipe_stage_height_variance(const uint8_t *recipe, size_t recipe_length, size_t width, size_t height,
                                      const int16_t *frame, size_t frame_length, int16_t *block, size_t block_length,
                                      int16_t *output, size_t output_length);

/* Heights, -32,768 to 32,767. Selecting goes by least range. */
uint32_t recipe_stage_height_range(const uint8_t *recipe, size_t recipe_length, size_t width, size_t height,
                                   const int16_t *frame, size_t frame_length, int16_t *block, size_t block_length,
                                   int16_t *output, size_t output_length);

/*
 * Checks a recipe without running it, for grey levels or heights. On 0 the sheet is written, three bytes: planes, 1 to 4;
 * reach, in columns and rows; marks, as bits of recipe_stage_mark. On a refusal, 11 to 18, the sheet is as it was.
 */
uint32_t recipe_stage_sheet(const uint8_t *recipe, size_t recipe_length, uint8_t sheet[3]);

#ifdef __cplusplus
}
#endif

#endif
