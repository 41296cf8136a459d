/* TSM files: check an image, find an entry, read a block or a point, write, unroll and merge images.
 *
 * An image is the whole of a TSM file, as bytes in memory; a roll is the plain list of its series. A key is a byte
 * string. Times and values are signed 64-bit numbers; the value of a boolean point is 0 or 1.
 *
 * Each function answers a struct by value. Its first part, `answer`, holds TSM_OK, or the number of the one refusal that
 * applies (enum tsm_refusal). On a refusal every other field is 0, and every lent buffer is left as it was. On a success
 * the fields hold the result; cells of a buffer past it are left as they were. Each function is proved to do so for all
 * arguments that keep these rules:
 *
 * - A length counts elements, and the pointer before it points to that many that may be read (or written, for an
 *   output). With length 0 the pointer is never followed, and may be null.
 * - An output overlaps no other argument. Inputs may overlap.
 * - Nothing else writes to an argument while the function runs.
 *
 * The functions use no heap and keep no state: several threads may call them at the same time. The stack that they need
 * is measured, not proved: up to 2 KiB for tsm_find, 28 KiB for tsm_write, 68 KiB for tsm_merge, 20 KiB for the others. A
 * thread with 64 KiB of stack is enough for all but tsm_merge, which crashes in it; one with 128 KiB is enough for all.
 *
 * The library is for x86-64. Of the C library it needs memcpy and memset alone. */
#ifndef TSM_H
#define TSM_H

#include <stddef.h>
#include <stdint.h>

#ifdef __cplusplus
extern "C" {
#endif

/* Bytes of an image, at least and at most. */
#define TSM_IMAGE_LEAST 13
#define TSM_IMAGE_MOST 1048576

/* Bytes of a key, at most; at least 1. */
#define TSM_KEY_MOST 1024

/* Points of a block, at most. */
#define TSM_BLOCK_MOST 1000

/* What the values of a key are. */
enum tsm_kind {
    TSM_INTEGER = 1,
    TSM_BOOLEAN = 2
};

/* The numbers of an answer: success, or why a function refuses. */
enum tsm_refusal {
    TSM_OK = 0,
    TSM_IMAGE_LENGTH = 1,     /* the image is shorter than 13 bytes or longer than 1,048,576 */
    TSM_MAGIC = 2,            /* the image does not start with 16 D1 16 D1 */
    TSM_VERSION = 3,          /* the version is not 1 */
    TSM_INDEX_START = 4,      /* the index starts inside the header, or past the start of the footer */
    TSM_ENTRY_PAST_INDEX = 5, /* an index entry runs past the end of the index */
    TSM_KEY_LENGTH = 6,       /* a key is empty or longer than 1,024 bytes */
    TSM_UNKNOWN_KIND = 7,     /* the kind of a key is neither integer nor boolean */
    TSM_NO_BLOCKS = 8,        /* a key has no blocks */
    TSM_KEY_ORDER = 9,        /* a key is not above the key before it */
    TSM_TIME_ORDER = 10,      /* the times of an index entry are not in order */
    TSM_BLOCK_PLACE = 11,     /* a block is misplaced or too small, or the blocks do not end where the index starts */
    TSM_CHECKSUM = 12,        /* the checksum of a block is wrong */
    TSM_BLOCK_HEAD = 13,      /* the head of a block is malformed, or a section of it is empty */
    TSM_TIMESTAMPS = 14,      /* the timestamps of a block are malformed */
    TSM_VALUES = 15,          /* the values of a block are malformed, or not as many as its timestamps */
    TSM_TIMES_DIFFER = 16,    /* the first or last time of a block is not the one in the index */
    TSM_NO_SUCH_KEY = 17,     /* the image has no such key */
    TSM_NO_ENTRY = 18,        /* the key has no block that covers the time */
    TSM_SHORT_BUFFER = 19,    /* a lent buffer is too short for the whole result */
    TSM_BAD_ROLL = 20,        /* the roll is malformed */
    TSM_KIND_CLASH = 21,      /* a key has different kinds in the two images */
    TSM_IMAGE_TOO_LONG = 22,  /* the written image would be longer than 1,048,576 bytes */
    TSM_NO_POINT = 23         /* the key has no point at exactly this time */
};

/* Whether a function refuses, and why. */
struct tsm_answer {
    uint8_t number; /* TSM_OK, or the refusal (enum tsm_refusal) */
};

/* An index entry: one block of a key. */
struct tsm_entry {
    uint8_t kind;    /* what the values of the key are (enum tsm_kind); 0 on a refusal */
    uint32_t size;   /* how many bytes the block has, its checksum included */
    int64_t min;     /* the time of the block's first point */
    int64_t max;     /* the time of the block's last point */
    uint64_t offset; /* where the block stands in the image, in bytes from its start */
};

/* What tsm_check answers. */
struct tsm_checked {
    struct tsm_answer answer;
    uint64_t keys;   /* how many keys the image has */
    uint64_t points; /* how many points, of all keys */
};

/* What tsm_find answers. */
struct tsm_found {
    struct tsm_answer answer;
    struct tsm_entry entry; /* the block that covers the time */
};

/* What tsm_read_block answers. */
struct tsm_block {
    struct tsm_answer answer;
    struct tsm_entry entry; /* the block that was read */
    size_t count;           /* how many points it has: so many cells of times and of values are written */
};

/* What tsm_read_point answers. */
struct tsm_point {
    struct tsm_answer answer;
    struct tsm_entry entry; /* the block that holds the point */
    int64_t value;          /* the point's value */
};

/* What tsm_write, tsm_unroll and tsm_merge answer. */
struct tsm_written {
    struct tsm_answer answer;
    size_t bytes; /* how many bytes of the output are written */
};

/* Checks an image in full, every block included, and counts its keys and points.
 * Refusals: 1 to 16. */
struct tsm_checked tsm_check(const uint8_t *image, size_t image_len);

/* Finds the index entry whose block covers a time of a key. The whole index is checked; no block is read.
 * Refusals: 1 to 11, 17, 18. */
struct tsm_found tsm_find(const uint8_t *image, size_t image_len, const uint8_t *key, size_t key_len, int64_t time);

/* Reads the block that covers a time of a key: finds its entry as tsm_find does, checks the block, and writes its
 * points to the first cells of times and of values. Buffers of TSM_BLOCK_MOST cells are long enough.
 * Refusals: 1 to 11, 17, 18, 12 to 16, 19. */
struct tsm_block tsm_read_block(const uint8_t *image, size_t image_len, const uint8_t *key, size_t key_len,
                                int64_t time, int64_t *times, size_t times_len, int64_t *values, size_t values_len);

/* Reads the value of a key at exactly a time: finds its entry as tsm_find does, and checks the block.
 * Refusals: 1 to 11, 17, 18, 12 to 16, 23. */
struct tsm_point tsm_read_point(const uint8_t *image, size_t image_len, const uint8_t *key, size_t key_len,
                                int64_t time);

/* Writes a roll as an image to the first bytes of out. A buffer of TSM_IMAGE_MOST bytes is long enough.
 * Refusals: 20, 22, 19. */
struct tsm_written tsm_write(const uint8_t *roll, size_t roll_len, uint8_t *out, size_t out_len);

/* Checks an image in full, and writes it as a roll to the first bytes of out. A roll may be longer than its image; a
 * buffer of TSM_ROLL_ROOM(keys, points) bytes (tsm_roll.h), with the totals of tsm_check, is long enough.
 * Refusals: 1 to 16, 19. */
struct tsm_written tsm_unroll(const uint8_t *image, size_t image_len, uint8_t *out, size_t out_len);

/* Checks two images in full, and writes the image of their points to the first bytes of out: where both have a point
 * of one key and time, the newer image's. A buffer of TSM_IMAGE_MOST bytes is long enough.
 * Refusals: 1 to 16 for the older image, 1 to 16 for the newer, 21, 22, 19. */
struct tsm_written tsm_merge(const uint8_t *older, size_t older_len, const uint8_t *newer, size_t newer_len,
                             uint8_t *out, size_t out_len);

#ifdef __cplusplus
}
#endif

#endif
