// The header serves C++, its structs have the same layout there, and its functions link.
#include "layout.h"

#include <cstdio>

int main()
{
    const uint8_t bare[TSM_IMAGE_LEAST] = {0x16, 0xD1, 0x16, 0xD1, 1, 0, 0, 0, 0, 0, 0, 0, 5};
    const tsm_checked checked = tsm_check(bare, sizeof bare);
    std::printf("%d %d %d\n", int(checked.answer.number), int(checked.keys), int(checked.points));
    return checked.answer.number != TSM_OK || checked.keys != 0 || checked.points != 0;
}
