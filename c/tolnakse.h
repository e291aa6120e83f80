/* The dispatcher's calls into Tolnakse: plain calls on numbers and bytes.
 *
 * Link with libdispatch.a (`.ci/dispatcher` makes target/staticlib/libdispatch.a).
 * Neither call allocates, keeps a pointer or has state, so both may be made from any place.
 * The parameters are narrow where the rules are: compile with -Wconversion, so that the
 * compiler says where a wider number would be cut on the way in.
 */
#ifndef TOLNAKSE_H
#define TOLNAKSE_H

#include <stddef.h>
#include <stdint.h>

/* The number of units, 1 to 255, that a frame with `data_bytes` data bytes takes of an
 * elementary cycle of `cycle_bits` bit times; 255 units are the whole cycle.
 *
 * Declined, with 1,000 plus the refusal's number:
 *   1011  more than 8 data bytes
 *   1012  the frame is longer than the cycle
 */
uint32_t tolnakse_frame_units(uint16_t cycle_bits, size_t data_bytes);

/* Writes the trigger that names the rows of `word` (bit r is row r) into the four bytes
 * from `offset` on of the `length` bytes at `buffer`, and no other byte. Byte k gets rows
 * 8k to 8k + 7, the lowest row in the lowest bit. `buffer` must point at `length` bytes
 * that may be written, and nobody else may use them during the call.
 *
 * Answers 0, or 10 where offset + 4 is above length; the buffer is then as it was.
 */
uint32_t tolnakse_write_trigger(uint32_t word, uint8_t *buffer, size_t length, size_t offset);

#endif
