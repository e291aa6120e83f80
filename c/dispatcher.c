/* A small dispatcher: works out a cart's frame durations and fills the trigger of a cycle. */
#include <inttypes.h>
#include <stdio.h>

#include "tolnakse.h"

#define CYCLE_BITS 2500 /* 5 ms at 500 kbit/s */

static void show_units(uint16_t cycle_bits, size_t data_bytes)
{
    uint32_t answer = tolnakse_frame_units(cycle_bits, data_bytes);
    if (answer < 1000)
        printf("%zu data bytes in %u bit times: %" PRIu32 " units\n", data_bytes, cycle_bits, answer);
    else
        printf("%zu data bytes in %u bit times: declined %" PRIu32 "\n", data_bytes, cycle_bits, answer - 1000);
}

static void show_trigger(uint32_t word, size_t length, size_t offset)
{
    uint8_t frame[8] = {0xee, 0xee, 0xee, 0xee, 0xee, 0xee, 0xee, 0xee};
    uint32_t answer = tolnakse_write_trigger(word, frame, length, offset);
    printf("word %08" PRIx32 " at %zu of %zu: %" PRIu32 ",", word, offset, length, answer);
    for (size_t i = 0; i < sizeof frame; i++)
        printf(" %02x", frame[i]);
    printf("\n");
}

int main(void)
{
    for (size_t data_bytes = 0; data_bytes <= 9; data_bytes++)
        show_units(CYCLE_BITS, data_bytes);
    show_units(47, 0);
    show_units(46, 0);
    show_units(0, 0);
    show_units(0, SIZE_MAX);
    show_trigger(UINT32_C(1) << 0 | UINT32_C(1) << 9 | UINT32_C(1) << 31, 8, 2);
    show_trigger(UINT32_MAX, 8, 4);
    show_trigger(UINT32_MAX, 8, 5);
    show_trigger(UINT32_MAX, 8, SIZE_MAX);
    show_trigger(UINT32_MAX, 3, 0);
    show_trigger(0, 4, 0);
    return 0;
}
