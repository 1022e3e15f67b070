/* Smooths a small grey frame by a recipe, and shows its sheet and image; then a recipe that is refused. docs/CONTROLLER.md says how to build it. */
#include <stdio.h>
#include "recipe_stage.h"

enum { WIDTH = 10, HEIGHT = 7, PLACES = WIDTH * HEIGHT };

/* The mean of open-close and close-open by the full 3 x 3 square. */
static const uint8_t smooth[] = {
    1,  0,    0,    0,    0, 0, 0, 0, /* frame */
    5,  0xC0, 0x39, 0x07, 0, 0, 0, 0, /* open by 739C0 */
    6,  0xC0, 0x39, 0x07, 0, 0, 0, 0, /* close by 739C0 */
    1,  0,    0,    0,    0, 0, 0, 0, /* frame */
    6,  0xC0, 0x39, 0x07, 0, 0, 0, 0, /* close by 739C0 */
    5,  0xC0, 0x39, 0x07, 0, 0, 0, 0, /* open by 739C0 */
    10, 0,    0,    0,    0, 0, 0, 0, /* mean-high */
};

/* A meet of two planes where one is. */
static const uint8_t lacking[] = {
    1, 0, 0, 0, 0, 0, 0, 0, /* frame */
    7, 0, 0, 0, 0, 0, 0, 0, /* meet */
};

/* A carton's edge, with a bright speck and a dark one. */
static const uint8_t frame[PLACES] = {
    10, 10, 10,  10, 10, 90, 90, 90, 90, 90, /* */
    10, 10, 10,  10, 10, 90, 90, 90, 90, 90, /* */
    10, 10, 10,  10, 10, 90, 90, 90, 90, 90, /* */
    10, 10, 200, 10, 10, 90, 90, 0,  90, 90, /* */
    10, 10, 10,  10, 10, 90, 90, 90, 90, 90, /* */
    10, 10, 10,  10, 10, 90, 90, 90, 90, 90, /* */
    10, 10, 10,  10, 10, 90, 90, 90, 90, 90, /* */
};

static void show(const uint8_t *image) {
    for (int y = 0; y < HEIGHT; y++) {
        for (int x = 0; x < WIDTH; x++) printf("%4d", image[y * WIDTH + x]);
        printf("\n");
    }
}

int main(void) {
    static uint8_t block[RECIPE_STAGE_BLOCK(WIDTH, HEIGHT)];
    static uint8_t image[PLACES];
    uint8_t sheet[3];
    uint32_t number = recipe_stage_sheet(smooth, sizeof smooth, sheet);
    if (number != RECIPE_STAGE_DONE) {
        printf("refused %u\n", number);
        return 1;
    }
    printf("planes %d reach %d%s\n", sheet[0], sheet[1], sheet[2] & RECIPE_STAGE_WITHIN ? " within" : "");
    number = recipe_stage_grey_variance(smooth, sizeof smooth, WIDTH, HEIGHT, frame, PLACES, block, sizeof block,
                                        image, PLACES);
    if (number != RECIPE_STAGE_DONE) {
        printf("refused %u\n", number);
        return 1;
    }
    show(image);
    number = recipe_stage_grey_variance(lacking, sizeof lacking, WIDTH, HEIGHT, frame, PLACES, block, sizeof block,
                                        image, PLACES);
    printf("refused %u\n", number);
    return number != RECIPE_STAGE_TOO_FEW_PLANES;
}
