/* Prints the value of a key at a time: read_point FILE KEY TIME */
#include <stdio.h>
#include <stdlib.h>
#include <string.h>
#include <tsm.h>

/* One byte more than an image may have, so that a file that is too long is refused and not cut. */
static uint8_t image[TSM_IMAGE_MOST + 1];

int main(int argc, char **argv)
{
    FILE *file = argc == 4 ? fopen(argv[1], "rb") : NULL;
    if (!file)
        return fputs("usage: read_point FILE KEY TIME\n", stderr), 2;
    size_t len = fread(image, 1, sizeof image, file);
    if (ferror(file))
        return perror(argv[1]), 2;
    struct tsm_point point =
        tsm_read_point(image, len, (const uint8_t *)argv[2], strlen(argv[2]), strtoll(argv[3], NULL, 10));
    if (point.answer.number != TSM_OK)
        return printf("refused: %d\n", point.answer.number), 1;
    printf("%lld\n", (long long)point.value);
    return 0;
}
