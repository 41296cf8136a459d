/* The C interface on the worked pieces of document 01 and on small damaged files. Outputs hold a pattern before every
 * call, with cells beside them that must stay; inputs lie in memory of exactly their length, so that valgrind sees a step
 * too far. A refusal must hold 0 in every field but its number. */
#include "layout.h"

#include <stdbool.h>
#include <stdio.h>
#include <stdlib.h>
#include <string.h>
#include <tsm.h>

static int failures = 0, checks = 0;

#define EXPECT(what) \
    do { \
        checks++; \
        if (!(what)) { \
            failures++; \
            printf("%s:%d: %s: not so: %s\n", __FILE__, __LINE__, about, #what); \
        } \
    } while (0)

/* What the calls below are about, for a failure's line. */
static const char *about = "";

/* ---- bytes */

typedef struct {
    uint8_t bytes[2048];
    size_t len;
} Bytes;

static void put(Bytes *to, const void *from, size_t len)
{
    memcpy(to->bytes + to->len, from, len);
    to->len += len;
}

/* The low bytes of a number, high byte first. */
static void put_be(Bytes *to, uint64_t number, size_t width)
{
    for (size_t i = 0; i < width; i++)
        to->bytes[to->len++] = (uint8_t)(number >> 8 * (width - 1 - i));
}

/* The bytes of hexadecimal digits; spaces are passed over. */
static Bytes hex(const char *digits)
{
    Bytes b = {.len = 0};
    for (; *digits; digits++) {
        unsigned byte;
        if (*digits == ' ')
            continue;
        if (sscanf(digits, "%2x", &byte) != 1)
            abort();
        b.bytes[b.len++] = (uint8_t)byte;
        digits++;
    }
    return b;
}

/* The CRC-32 of IEEE 802.3, bit by bit. */
static uint32_t crc32(const uint8_t *bytes, size_t len)
{
    uint32_t crc = 0xFFFFFFFF;
    for (size_t i = 0; i < len; i++) {
        crc ^= bytes[i];
        for (int bit = 0; bit < 8; bit++)
            crc = crc & 1 ? crc >> 1 ^ 0xEDB88320 : crc >> 1;
    }
    return ~crc;
}

/* A copy in memory of exactly its length; of no bytes, a null pointer. */
static uint8_t *lend(const Bytes *bytes)
{
    if (bytes->len == 0)
        return NULL;
    uint8_t *copy = malloc(bytes->len);
    if (copy == NULL)
        abort();
    return memcpy(copy, bytes->bytes, bytes->len);
}

/* Takes the copy back, which must be as it was lent. */
static void take_back(uint8_t *copy, const Bytes *bytes)
{
    EXPECT(bytes->len == 0 || memcmp(copy, bytes->bytes, bytes->len) == 0);
    free(copy);
}

/* ---- images */

/* An image of one key, "a", with one block of a kind and two sections. */
static Bytes image_of(uint8_t kind, const char *times, const char *values, int64_t min, int64_t max)
{
    Bytes t = hex(times), v = hex(values), block = {.len = 0}, image = {.len = 0};
    uint8_t head[2] = {kind, (uint8_t)t.len};
    put(&block, head, 2);
    put(&block, t.bytes, t.len);
    put(&block, v.bytes, v.len);
    put_be(&image, 0x16D116D101, 5);
    put_be(&image, crc32(block.bytes, block.len), 4);
    put(&image, block.bytes, block.len);
    uint64_t index = image.len;
    put_be(&image, 1, 2);
    put(&image, "a", 1);
    put_be(&image, kind, 1);
    put_be(&image, 1, 2);
    put_be(&image, (uint64_t)min, 8);
    put_be(&image, (uint64_t)max, 8);
    put_be(&image, 5, 8);
    put_be(&image, index - 5, 4);
    put_be(&image, index, 8);
    return image;
}

/* The sample: true, false, false at 0, 10, 20. Its index begins at 25. */
static Bytes sample(void)
{
    return image_of(TSM_BOOLEAN, "21 00 00 00 00 00 00 00 00 01 03", "10 03 80", 0, 20);
}

/* The sample with one byte changed. */
static Bytes changed(size_t at, uint8_t byte)
{
    Bytes image = sample();
    image.bytes[at] = byte;
    return image;
}

/* The sample with one byte of its block changed, and the checksum made good again. */
static Bytes resealed(size_t at, uint8_t byte)
{
    Bytes image = changed(at, byte), seal = {.len = 0};
    put_be(&seal, crc32(image.bytes + 9, 16), 4);
    memcpy(image.bytes + 5, seal.bytes, 4);
    return image;
}

/* ---- calls, each with canaries and with a pattern in what it may write */

enum { CANARY = 0x5A, MARGIN = 4, CELLS = 16, BYTES = 200 };

/* The outputs, with room beside each that must stay. */
typedef struct {
    int64_t times_before[MARGIN], times[CELLS + MARGIN];
    int64_t values_before[MARGIN], values[CELLS + MARGIN];
    uint8_t out_before[8], out[BYTES + 8];
} Outs;

static Outs untouched(void)
{
    Outs o;
    memset(&o, CANARY, sizeof o);
    return o;
}

/* Nothing is written. */
static bool kept(const Outs *o)
{
    Outs fresh = untouched();
    return memcmp(o, &fresh, sizeof fresh) == 0;
}

static struct tsm_checked check(Bytes image)
{
    uint8_t *lent = lend(&image);
    struct tsm_checked checked = tsm_check(lent, image.len);
    take_back(lent, &image);
    return checked;
}

static struct tsm_found find(Bytes image, Bytes key, int64_t time)
{
    uint8_t *lent = lend(&image), *lent_key = lend(&key);
    struct tsm_found found = tsm_find(lent, image.len, lent_key, key.len, time);
    take_back(lent, &image);
    take_back(lent_key, &key);
    return found;
}

static struct tsm_block read_block(Bytes image, Bytes key, int64_t time, size_t times_len, size_t values_len, Outs *o)
{
    uint8_t *lent = lend(&image), *lent_key = lend(&key);
    *o = untouched();
    struct tsm_block block = tsm_read_block(lent, image.len, lent_key, key.len, time, times_len ? o->times : NULL,
                                            times_len, values_len ? o->values : NULL, values_len);
    take_back(lent, &image);
    take_back(lent_key, &key);
    return block;
}

static struct tsm_point read_point(Bytes image, Bytes key, int64_t time)
{
    uint8_t *lent = lend(&image), *lent_key = lend(&key);
    struct tsm_point point = tsm_read_point(lent, image.len, lent_key, key.len, time);
    take_back(lent, &image);
    take_back(lent_key, &key);
    return point;
}

/* tsm_write or tsm_unroll. */
typedef struct tsm_written Lay(const uint8_t *, size_t, uint8_t *, size_t);

static struct tsm_written lay(Lay *act, Bytes input, size_t out_len, Outs *o)
{
    uint8_t *lent = lend(&input);
    *o = untouched();
    struct tsm_written written = act(lent, input.len, out_len ? o->out : NULL, out_len);
    take_back(lent, &input);
    return written;
}

static struct tsm_written merge(Bytes older, Bytes newer, size_t out_len, Outs *o)
{
    uint8_t *lent_older = lend(&older), *lent_newer = lend(&newer);
    *o = untouched();
    struct tsm_written written =
        tsm_merge(lent_older, older.len, lent_newer, newer.len, out_len ? o->out : NULL, out_len);
    take_back(lent_older, &older);
    take_back(lent_newer, &newer);
    return written;
}

/* ---- what is expected */

static bool is_entry(struct tsm_entry e, uint8_t kind, uint32_t size, int64_t min, int64_t max, uint64_t offset)
{
    return e.kind == kind && e.size == size && e.min == min && e.max == max && e.offset == offset;
}

static bool is_zero(struct tsm_entry e)
{
    return is_entry(e, 0, 0, 0, 0, 0);
}

/* Each act refuses by this number; every other field is 0, and nothing is written. */
static bool check_refuses(Bytes image, uint8_t number)
{
    struct tsm_checked checked = check(image);
    return checked.answer.number == number && checked.keys == 0 && checked.points == 0;
}

static bool find_refuses(Bytes image, Bytes key, int64_t time, uint8_t number)
{
    struct tsm_found found = find(image, key, time);
    return found.answer.number == number && is_zero(found.entry);
}

static bool read_block_refuses(Bytes image, Bytes key, int64_t time, size_t times_len, size_t values_len, uint8_t number)
{
    Outs o;
    struct tsm_block block = read_block(image, key, time, times_len, values_len, &o);
    return block.answer.number == number && is_zero(block.entry) && block.count == 0 && kept(&o);
}

static bool read_point_refuses(Bytes image, Bytes key, int64_t time, uint8_t number)
{
    struct tsm_point point = read_point(image, key, time);
    return point.answer.number == number && is_zero(point.entry) && point.value == 0;
}

static bool refused(struct tsm_written written, Outs o, uint8_t number)
{
    return written.answer.number == number && written.bytes == 0 && kept(&o);
}

static bool write_refuses(Bytes roll, size_t out_len, uint8_t number)
{
    Outs o;
    struct tsm_written written = lay(tsm_write, roll, out_len, &o);
    return refused(written, o, number);
}

static bool unroll_refuses(Bytes image, size_t out_len, uint8_t number)
{
    Outs o;
    struct tsm_written written = lay(tsm_unroll, image, out_len, &o);
    return refused(written, o, number);
}

static bool merge_refuses(Bytes older, Bytes newer, size_t out_len, uint8_t number)
{
    Outs o;
    struct tsm_written written = merge(older, newer, out_len, &o);
    return refused(written, o, number);
}

/* These bytes were written, and nothing past them. */
static bool wrote(struct tsm_written written, Outs o, Bytes expected)
{
    Outs fresh = untouched();
    if (written.answer.number != TSM_OK || written.bytes != expected.len)
        return false;
    if (memcmp(o.out, expected.bytes, expected.len) != 0)
        return false;
    memcpy(o.out, fresh.out, expected.len);
    return kept(&o);
}

/* A roll is written, an image unrolled, or two merged, in a buffer of this length, as these bytes. */
static bool writes(Bytes roll, size_t out_len, Bytes expected)
{
    Outs o;
    struct tsm_written written = lay(tsm_write, roll, out_len, &o);
    return wrote(written, o, expected);
}

static bool unrolls(Bytes image, size_t out_len, Bytes expected)
{
    Outs o;
    struct tsm_written written = lay(tsm_unroll, image, out_len, &o);
    return wrote(written, o, expected);
}

static bool merges_to(Bytes older, Bytes newer, size_t out_len, Bytes expected)
{
    Outs o;
    struct tsm_written written = merge(older, newer, out_len, &o);
    return wrote(written, o, expected);
}

/* All four acts refuse an image, and write nothing. */
static void all_refuse(const char *what, Bytes image, uint8_t number)
{
    Bytes a = hex("61");
    about = what;
    EXPECT(check_refuses(image, number));
    EXPECT(find_refuses(image, a, 0, number));
    EXPECT(read_block_refuses(image, a, 0, CELLS, CELLS, number));
    EXPECT(read_point_refuses(image, a, 0, number));
}

/* The acts that read the block refuse an image whose index is good. */
static void block_refused(const char *what, Bytes image, uint8_t number)
{
    Bytes a = hex("61");
    about = what;
    EXPECT(check_refuses(image, number));
    EXPECT(find(image, a, 0).answer.number == TSM_OK);
    EXPECT(read_block_refuses(image, a, 0, CELLS, CELLS, number));
    EXPECT(read_point_refuses(image, a, 0, number));
}

/* An image of key "a" with one block has n points; every act says so, and writes nothing else. */
static void has_points(const char *what, Bytes image, uint8_t kind, size_t n, const int64_t *times, const int64_t *values)
{
    Outs o, fresh = untouched();
    Bytes a = hex("61");
    int64_t min = times[0], max = times[n - 1];
    uint32_t size = (uint32_t)image.len - 47; /* without header, index and footer */
    about = what;

    struct tsm_checked checked = check(image);
    EXPECT(checked.answer.number == TSM_OK && checked.keys == 1 && checked.points == n);

    for (size_t i = 0; i < n; i++) {
        struct tsm_found found = find(image, a, times[i]);
        EXPECT(found.answer.number == TSM_OK && is_entry(found.entry, kind, size, min, max, 5));

        struct tsm_point point = read_point(image, a, times[i]);
        EXPECT(point.answer.number == TSM_OK && is_entry(point.entry, kind, size, min, max, 5));
        EXPECT(point.value == values[i]);

        struct tsm_block block = read_block(image, a, times[i], n + i, n, &o);
        EXPECT(block.answer.number == TSM_OK && is_entry(block.entry, kind, size, min, max, 5));
        EXPECT(block.count == n);
        EXPECT(memcmp(o.times, times, n * sizeof *times) == 0 && memcmp(o.values, values, n * sizeof *values) == 0);
        memcpy(o.times, fresh.times, n * sizeof *times);
        memcpy(o.values, fresh.values, n * sizeof *values);
        EXPECT(kept(&o));
    }

    EXPECT(read_block_refuses(image, a, times[0], n - 1, n, TSM_SHORT_BUFFER));
    EXPECT(read_block_refuses(image, a, times[0], n, n - 1, TSM_SHORT_BUFFER));
}

static void worked_pieces(void)
{
    int64_t low = INT64_MIN, high = INT64_MAX;
    const int64_t tens[] = {0, 10, 20, 30, 40, 50, 60, 70, 80};
    has_points("true, false, false", sample(), TSM_BOOLEAN, 3, tens, (int64_t[]){1, 0, 0});
    EXPECT(sample().len == 67);
    has_points("eight false, one true", image_of(TSM_BOOLEAN, "21 00 00 00 00 00 00 00 00 01 09", "10 09 00 80", 0, 80),
               TSM_BOOLEAN, 9, tens, (int64_t[]){0, 0, 0, 0, 0, 0, 0, 0, 1});
    has_points("7, 7, 7", image_of(TSM_INTEGER, "21 00 00 00 00 00 00 00 00 01 03", "20 00 00 00 00 00 00 00 0E 00 02", 0, 20),
               TSM_INTEGER, 3, tens, (int64_t[]){7, 7, 7});
    has_points("7 at -5", image_of(TSM_INTEGER, "1C FF FF FF FF FF FF FF FB", "10 00 00 00 00 00 00 00 0E", -5, -5),
               TSM_INTEGER, 1, (int64_t[]){-5}, (int64_t[]){7});
    has_points("times 1, 2, 4",
               image_of(TSM_BOOLEAN, "10 00 00 00 00 00 00 00 01 E0 00 00 00 80 00 00 01", "10 03 80", 1, 4),
               TSM_BOOLEAN, 3, (int64_t[]){1, 2, 4}, (int64_t[]){1, 0, 0});
    has_points("7, 5 at both ends of time",
               image_of(TSM_INTEGER, "20 80 00 00 00 00 00 00 00 FF FF FF FF FF FF FF FF FF 01 02",
                        "10 00 00 00 00 00 00 00 0E F0 00 00 00 00 00 00 03", low, high),
               TSM_INTEGER, 2, (int64_t[]){low, high}, (int64_t[]){7, 5});
    has_points("both ends of the integers",
               image_of(TSM_INTEGER, "10 00 00 00 00 00 00 00 00 F0 00 00 00 00 00 00 0A",
                        "00 FF FF FF FF FF FF FF FF 00 00 00 00 00 00 00 01", 0, 10),
               TSM_INTEGER, 2, tens, (int64_t[]){low, high});
    has_points("times 0, 1, 2^60, packed",
               image_of(TSM_BOOLEAN, "10 00 00 00 00 00 00 00 00 F0 00 00 00 00 00 00 01 FF FF FF FF FF FF FF FF", "10 03 80", 0,
                        (int64_t)1 << 60),
               TSM_BOOLEAN, 3, (int64_t[]){0, 1, (int64_t)1 << 60}, (int64_t[]){1, 0, 0});
    has_points("times 0, 1, 2^60, raw",
               image_of(TSM_BOOLEAN, "00 00 00 00 00 00 00 00 00 00 00 00 00 00 00 00 01 0F FF FF FF FF FF FF FF", "10 03 80", 0,
                        (int64_t)1 << 60),
               TSM_BOOLEAN, 3, (int64_t[]){0, 1, (int64_t)1 << 60}, (int64_t[]){1, 0, 0});
}

static void bare_image(void)
{
    Bytes bare = hex("16 D1 16 D1 01 00 00 00 00 00 00 00 05"), none = {.len = 0}, cut = bare, early = bare;
    struct tsm_checked checked = check(bare);
    about = "bare image";
    EXPECT(checked.answer.number == TSM_OK && checked.keys == 0 && checked.points == 0);
    EXPECT(find_refuses(bare, hex("61"), 0, TSM_NO_SUCH_KEY));
    cut.len = 12;
    early.bytes[12] = 4;
    all_refuse("twelve bytes", cut, TSM_IMAGE_LENGTH);
    all_refuse("no bytes, and no pointer", none, TSM_IMAGE_LENGTH);
    all_refuse("index start 4", early, TSM_INDEX_START);
}

static void damage(void)
{
    Bytes twice = sample();
    all_refuse("first byte", changed(0, 0x17), TSM_MAGIC);
    all_refuse("version", changed(4, 2), TSM_VERSION);
    all_refuse("index start past the end", changed(66, 60), TSM_INDEX_START);
    all_refuse("two entries announced", changed(30, 2), TSM_ENTRY_PAST_INDEX);
    all_refuse("empty key", changed(26, 0), TSM_KEY_LENGTH);
    all_refuse("kind 3", changed(28, 3), TSM_UNKNOWN_KIND);
    all_refuse("no entry", changed(30, 0), TSM_NO_BLOCKS);
    all_refuse("min above max", changed(38, 21), TSM_TIME_ORDER);
    all_refuse("offset 6", changed(54, 6), TSM_BLOCK_PLACE);
    all_refuse("size 21", changed(58, 21), TSM_BLOCK_PLACE);

    /* the key again, after itself */
    twice.len = 59;
    put(&twice, twice.bytes + 25, 34);
    put_be(&twice, 25, 8);
    all_refuse("the same key twice", twice, TSM_KEY_ORDER);

    block_refused("a value bit", changed(24, 0xC0), TSM_CHECKSUM);
    block_refused("another kind in the block", resealed(9, TSM_INTEGER), TSM_BLOCK_HEAD);
    block_refused("timestamps longer than the block", resealed(10, 15), TSM_BLOCK_HEAD);
    block_refused("exponent 13", resealed(11, 0x2D), TSM_TIMESTAMPS);
    block_refused("a padding bit", resealed(24, 0x81), TSM_VALUES);
    block_refused("two values", resealed(23, 2), TSM_VALUES);
    block_refused("max 30 in the index", changed(46, 30), TSM_TIMES_DIFFER);
    block_refused("a number that is not in its shortest form",
                  image_of(TSM_BOOLEAN, "21 00 00 00 00 00 00 00 00 01 83 00", "10 03 80", 0, 20), TSM_TIMESTAMPS);
}

static void questions(void)
{
    Outs o;
    Bytes image = sample(), a = hex("61"), none = {.len = 0}, longest = {.len = TSM_KEY_MOST + 1};
    memset(longest.bytes, 'a', longest.len);
    about = "questions";
    EXPECT(find_refuses(image, hex("62"), 0, TSM_NO_SUCH_KEY));
    EXPECT(find_refuses(image, hex("6161"), 0, TSM_NO_SUCH_KEY));
    EXPECT(find_refuses(image, none, 0, TSM_NO_SUCH_KEY));
    EXPECT(find_refuses(image, longest, 0, TSM_NO_SUCH_KEY));
    EXPECT(find_refuses(image, a, -1, TSM_NO_ENTRY));
    EXPECT(find_refuses(image, a, 21, TSM_NO_ENTRY));
    EXPECT(find_refuses(image, a, INT64_MIN, TSM_NO_ENTRY));
    EXPECT(read_block_refuses(image, none, 0, CELLS, CELLS, TSM_NO_SUCH_KEY));
    EXPECT(read_block_refuses(image, a, 21, CELLS, CELLS, TSM_NO_ENTRY));
    EXPECT(read_block_refuses(image, a, 5, 0, 0, TSM_SHORT_BUFFER));
    EXPECT(read_block(image, a, 5, CELLS, CELLS, &o).count == 3);
    EXPECT(read_point_refuses(image, none, 0, TSM_NO_SUCH_KEY));
    EXPECT(read_point_refuses(image, a, 21, TSM_NO_ENTRY));
    EXPECT(read_point_refuses(image, a, 5, TSM_NO_POINT));

    /* inputs may overlap: the key is the one in the index */
    struct tsm_found found = tsm_find(image.bytes, image.len, image.bytes + 27, 1, 20);
    EXPECT(found.answer.number == TSM_OK && is_entry(found.entry, TSM_BOOLEAN, 20, 0, 20, 5));
}

/* A roll and its image: each is written as the other, in a buffer of just its length and in a longer one. */
static void written_as(const char *what, Bytes roll, Bytes image)
{
    about = what;
    EXPECT(writes(roll, image.len, image));
    EXPECT(writes(roll, BYTES, image));
    EXPECT(write_refuses(roll, image.len - 1, TSM_SHORT_BUFFER));
    EXPECT(unrolls(image, roll.len, roll));
    EXPECT(unrolls(image, BYTES, roll));
    EXPECT(roll.len == 0 || unroll_refuses(image, roll.len - 1, TSM_SHORT_BUFFER));
}

static void rolls(void)
{
    Bytes bare = hex("16 D1 16 D1 01 00 00 00 00 00 00 00 05"), none = {.len = 0};
    written_as("the empty roll", none, bare);
    written_as("true, false, false", hex("01 61 02 03 00 01 0A 00 0A 00"), sample());
    written_as("7 at -5", hex("01 61 01 01 09 0E"),
               image_of(TSM_INTEGER, "1C FF FF FF FF FF FF FF FB", "10 00 00 00 00 00 00 00 0E", -5, -5));
    written_as("times 0, 1, 2^60", hex("01 61 02 03 00 01 01 00 FF FF FF FF FF FF FF FF 0F 00"),
               image_of(TSM_BOOLEAN, "10 00 00 00 00 00 00 00 00 F0 00 00 00 00 00 00 01 FF FF FF FF FF FF FF FF", "10 03 80", 0,
                        (int64_t)1 << 60));

    about = "bad rolls";
    EXPECT(write_refuses(hex("00"), BYTES, TSM_BAD_ROLL));
    EXPECT(write_refuses(hex("01 61 03 01 00 00"), BYTES, TSM_BAD_ROLL));
    EXPECT(write_refuses(hex("01 61 02 02 00 01 00 01"), BYTES, TSM_BAD_ROLL));
    EXPECT(write_refuses(hex("01 61 02 01 80 00 01"), BYTES, TSM_BAD_ROLL));
    EXPECT(write_refuses(hex("01 61 02 01 00 02"), 0, TSM_BAD_ROLL));
    EXPECT(write_refuses(hex("01 61 02 01 00 01 00"), BYTES, TSM_BAD_ROLL));

    about = "unroll refuses what check refuses";
    EXPECT(unroll_refuses(none, BYTES, TSM_IMAGE_LENGTH));
    EXPECT(unroll_refuses(changed(24, 0xC0), BYTES, TSM_CHECKSUM));
    EXPECT(unroll_refuses(changed(46, 30), 0, TSM_TIMES_DIFFER));
}

static void merges(void)
{
    Bytes bare = hex("16 D1 16 D1 01 00 00 00 00 00 00 00 05"), none = {.len = 0};
    Bytes both = image_of(TSM_BOOLEAN, "21 00 00 00 00 00 00 00 00 01 04", "10 04 D0", 0, 30);
    Bytes newer = image_of(TSM_BOOLEAN, "21 00 00 00 00 00 00 00 0A 02 02", "10 02 C0", 10, 30);
    Bytes integers = image_of(TSM_INTEGER, "1C FF FF FF FF FF FF FF FB", "10 00 00 00 00 00 00 00 0E", -5, -5);
    about = "merge";
    EXPECT(merges_to(bare, bare, BYTES, bare));
    EXPECT(merges_to(sample(), bare, BYTES, sample()));
    EXPECT(merges_to(bare, sample(), sample().len, sample()));
    EXPECT(merges_to(sample(), sample(), BYTES, sample()));
    EXPECT(merges_to(sample(), newer, BYTES, both));
    EXPECT(merge_refuses(sample(), newer, both.len - 1, TSM_SHORT_BUFFER));
    EXPECT(merge_refuses(sample(), integers, BYTES, TSM_KIND_CLASH));
    EXPECT(merge_refuses(none, changed(24, 0xC0), BYTES, TSM_IMAGE_LENGTH));
    EXPECT(merge_refuses(sample(), changed(24, 0xC0), 0, TSM_CHECKSUM));
}

int main(void)
{
    rolls();
    merges();
    worked_pieces();
    bare_image();
    damage();
    questions();
    printf("%d checks, %d failed\n", checks, failures);
    return failures != 0;
}
