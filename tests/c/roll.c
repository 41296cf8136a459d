/* Rolls built by tsm_roll.h: what is built, written and unrolled is the same roll; every refusal; and no room is passed.
 * Also compiled as C++. */
#include <stdio.h>
#include <stdlib.h>
#include <string.h>
#include <tsm_roll.h>

static int failures = 0, checks = 0;

#define EXPECT(what) \
    do { \
        checks++; \
        if (!(what)) { \
            failures++; \
            printf("%s:%d: not so: %s\n", __FILE__, __LINE__, #what); \
        } \
    } while (0)

static uint8_t image[TSM_IMAGE_MOST], unrolled[TSM_IMAGE_MOST];
static uint8_t long_key[TSM_KEY_MOST + 1];

/* Three keys, one of them a prefix of the next and one of the greatest length, with times and values at both ends. */
static struct tsm_roll three_keys(uint8_t *bytes, size_t room)
{
    struct tsm_roll roll = tsm_roll_begin(bytes, room);
    int64_t i;
    tsm_roll_key(&roll, (const uint8_t *)"k", 1, TSM_INTEGER, 3);
    tsm_roll_point(&roll, INT64_MIN, INT64_MAX);
    tsm_roll_point(&roll, 0, INT64_MIN);
    tsm_roll_point(&roll, INT64_MAX, -1);
    tsm_roll_key(&roll, (const uint8_t *)"k\xff", 2, TSM_BOOLEAN, 2);
    tsm_roll_point(&roll, -300, 1);
    tsm_roll_point(&roll, -299, 0);
    tsm_roll_key(&roll, long_key, TSM_KEY_MOST, TSM_INTEGER, 1001);
    for (i = 0; i < 1001; i++)
        tsm_roll_point(&roll, i * i, i % 3);
    tsm_roll_end(&roll);
    return roll;
}

/* What is built is written, and unrolls to what was built. */
static void returns(const struct tsm_roll *roll)
{
    struct tsm_written written = tsm_write(roll->bytes, roll->length, image, sizeof image);
    struct tsm_written back;
    EXPECT(written.answer.number == TSM_OK);
    back = tsm_unroll(image, written.bytes, unrolled, sizeof unrolled);
    EXPECT(back.answer.number == TSM_OK && back.bytes == roll->length);
    EXPECT(memcmp(unrolled, roll->bytes, roll->length) == 0);
}

/* Document 01's roll of three holes. */
static void worked(void)
{
    static const uint8_t expected[] = {0x01, 0x61, 0x02, 0x03, 0x00, 0x01, 0x0a, 0x00, 0x0a, 0x00};
    uint8_t bytes[TSM_ROLL_ROOM(1, 3)];
    struct tsm_roll roll = tsm_roll_begin(bytes, sizeof bytes);
    EXPECT(tsm_roll_key(&roll, (const uint8_t *)"a", 1, TSM_BOOLEAN, 3) == TSM_ROLL_OK);
    EXPECT(tsm_roll_point(&roll, 0, 1) == TSM_ROLL_OK);
    EXPECT(tsm_roll_point(&roll, 10, 0) == TSM_ROLL_OK);
    EXPECT(tsm_roll_point(&roll, 20, 0) == TSM_ROLL_OK);
    EXPECT(tsm_roll_end(&roll) == TSM_ROLL_OK);
    EXPECT(roll.length == sizeof expected && memcmp(bytes, expected, sizeof expected) == 0);
    returns(&roll);
}

/* The ends of the ranges, in a buffer that is long enough and in shorter ones, each with a byte after it that must stay. */
static void rooms(void)
{
    size_t most = TSM_ROLL_ROOM(3, 1006), room;
    uint8_t *bytes = (uint8_t *)malloc(most);
    struct tsm_roll whole = three_keys(bytes, most), again;
    EXPECT(whole.error == TSM_ROLL_OK && whole.length < most);
    returns(&whole);
    for (room = 0; room <= whole.length; room += room < 40 || room + 40 > whole.length ? 1 : 37) {
        uint8_t *shorter = (uint8_t *)malloc(room + 1);
        shorter[room] = 0xa5;
        again = three_keys(shorter, room);
        EXPECT(again.error == (room == whole.length ? TSM_ROLL_OK : TSM_ROLL_SHORT_BUFFER));
        EXPECT(again.length <= room && memcmp(shorter, bytes, again.length) == 0);
        EXPECT(shorter[room] == 0xa5);
        free(shorter);
    }
    again = tsm_roll_begin(NULL, 0);
    EXPECT(tsm_roll_end(&again) == TSM_ROLL_OK && again.length == 0);
    EXPECT(tsm_roll_key(&again, long_key, 1, TSM_INTEGER, 1) == TSM_ROLL_SHORT_BUFFER);
    free(bytes);
}

/* A roll of key "b" with one point of two. */
static struct tsm_roll half(uint8_t *bytes, size_t room, uint8_t kind)
{
    struct tsm_roll roll = tsm_roll_begin(bytes, room);
    tsm_roll_key(&roll, (const uint8_t *)"b", 1, kind, 2);
    tsm_roll_point(&roll, 5, 1);
    return roll;
}

/* The call is refused so, appends nothing, and every later call is refused as it was. */
#define REFUSES(roll, call, why) \
    do { \
        size_t length = (roll).length; \
        EXPECT((call) == (why)); \
        EXPECT((roll).length == length); \
        EXPECT(tsm_roll_key(&(roll), (const uint8_t *)"z", 1, TSM_INTEGER, 1) == (why)); \
        EXPECT(tsm_roll_point(&(roll), 100, 1) == (why)); \
        EXPECT(tsm_roll_end(&(roll)) == (why)); \
        EXPECT((roll).length == length); \
    } while (0)

static void refusals(void)
{
    uint8_t bytes[TSM_ROLL_ROOM(2, 3)];
    struct tsm_roll roll, whole = half(bytes, sizeof bytes, TSM_INTEGER);
    tsm_roll_point(&whole, 6, 1);

    roll = half(bytes, sizeof bytes, TSM_INTEGER);
    REFUSES(roll, tsm_roll_point(&roll, 5, 1), TSM_ROLL_TIME_ORDER);
    roll = half(bytes, sizeof bytes, TSM_INTEGER);
    REFUSES(roll, tsm_roll_point(&roll, INT64_MIN, 1), TSM_ROLL_TIME_ORDER);
    roll = half(bytes, sizeof bytes, TSM_BOOLEAN);
    REFUSES(roll, tsm_roll_point(&roll, 6, 2), TSM_ROLL_VALUE);
    roll = half(bytes, sizeof bytes, TSM_BOOLEAN);
    REFUSES(roll, tsm_roll_point(&roll, 6, -1), TSM_ROLL_VALUE);
    roll = half(bytes, sizeof bytes, TSM_INTEGER);
    REFUSES(roll, tsm_roll_end(&roll), TSM_ROLL_COUNT);
    roll = half(bytes, sizeof bytes, TSM_INTEGER);
    REFUSES(roll, tsm_roll_key(&roll, (const uint8_t *)"c", 1, TSM_INTEGER, 1), TSM_ROLL_COUNT);
    roll = whole;
    REFUSES(roll, tsm_roll_point(&roll, 7, 1), TSM_ROLL_COUNT);
    roll = whole;
    REFUSES(roll, tsm_roll_key(&roll, (const uint8_t *)"c", 1, TSM_INTEGER, 0), TSM_ROLL_COUNT);
    roll = whole;
    REFUSES(roll, tsm_roll_key(&roll, NULL, 0, TSM_INTEGER, 1), TSM_ROLL_KEY_LENGTH);
    roll = whole;
    REFUSES(roll, tsm_roll_key(&roll, long_key, TSM_KEY_MOST + 1, TSM_INTEGER, 1), TSM_ROLL_KEY_LENGTH);
    roll = whole;
    REFUSES(roll, tsm_roll_key(&roll, (const uint8_t *)"b", 1, TSM_INTEGER, 1), TSM_ROLL_KEY_ORDER);
    roll = whole;
    REFUSES(roll, tsm_roll_key(&roll, (const uint8_t *)"a\xff", 2, TSM_INTEGER, 1), TSM_ROLL_KEY_ORDER);
    roll = whole;
    REFUSES(roll, tsm_roll_key(&roll, (const uint8_t *)"c", 1, 3, 1), TSM_ROLL_KIND);
    roll = whole;
    EXPECT(tsm_roll_key(&roll, (const uint8_t *)"b\0", 2, TSM_BOOLEAN, 1) == TSM_ROLL_OK);
    EXPECT(tsm_roll_point(&roll, 0, 1) == TSM_ROLL_OK);
    EXPECT(tsm_roll_end(&roll) == TSM_ROLL_OK);
    returns(&roll);
}

int main(void)
{
    memset(long_key, 'x', sizeof long_key);
    worked();
    rooms();
    refusals();
    printf("tests/c/roll.c: %d checks, %d failed\n", checks, failures);
    return failures != 0;
}
