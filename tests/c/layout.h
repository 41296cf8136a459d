/* The size of each struct of tsm.h and the offsets of its fields on x86-64. bindings/rust/src/sys.rs asserts the same. */
#include <tsm.h>

#ifdef __cplusplus
#define HOLDS(what) static_assert(what, #what)
#else
#define HOLDS(what) _Static_assert(what, #what)
#endif
#define SIZE(type, size) HOLDS(sizeof(struct type) == size)
#define AT(type, field, offset) HOLDS(offsetof(struct type, field) == offset)

SIZE(tsm_answer, 1);
AT(tsm_answer, number, 0);

SIZE(tsm_entry, 32);
AT(tsm_entry, kind, 0);
AT(tsm_entry, size, 4);
AT(tsm_entry, min, 8);
AT(tsm_entry, max, 16);
AT(tsm_entry, offset, 24);

SIZE(tsm_checked, 24);
AT(tsm_checked, answer, 0);
AT(tsm_checked, keys, 8);
AT(tsm_checked, points, 16);

SIZE(tsm_found, 40);
AT(tsm_found, answer, 0);
AT(tsm_found, entry, 8);

SIZE(tsm_block, 48);
AT(tsm_block, answer, 0);
AT(tsm_block, entry, 8);
AT(tsm_block, count, 40);

SIZE(tsm_point, 48);
AT(tsm_point, answer, 0);
AT(tsm_point, entry, 8);
AT(tsm_point, value, 40);

SIZE(tsm_written, 16);
AT(tsm_written, answer, 0);
AT(tsm_written, bytes, 8);
