/* Builds a roll of three points, and writes its file to standard output: write_points >FILE */
#include <stdio.h>
#include <tsm_roll.h>

static uint8_t image[TSM_IMAGE_MOST];

int main(void)
{
    uint8_t bytes[TSM_ROLL_ROOM(1, 3)];
    struct tsm_roll roll = tsm_roll_begin(bytes, sizeof bytes);
    tsm_roll_key(&roll, (const uint8_t *)"a", 1, TSM_BOOLEAN, 3);
    tsm_roll_point(&roll, 0, 1);
    tsm_roll_point(&roll, 10, 0);
    tsm_roll_point(&roll, 20, 0);
    if (tsm_roll_end(&roll) != TSM_ROLL_OK)
        return fprintf(stderr, "no roll: %d\n", roll.error), 1;
    struct tsm_written written = tsm_write(roll.bytes, roll.length, image, sizeof image);
    if (written.answer.number != TSM_OK)
        return fprintf(stderr, "refused: %d\n", written.answer.number), 1;
    return fwrite(image, 1, written.bytes, stdout) != written.bytes || fflush(stdout) != 0;
}
