/*
 * bogslipper: reading and writing of RTCP headers, compounds, generic NACK and
 * transport-wide congestion control feedback (TWCC). For C and C++.
 *
 * Every call answers one bog_said. Number 0 is an answer; any other number is
 * a refusal of this table. Where several refusals apply, the first one in the
 * order that stands at the call is given.
 *
 *    1  bytes too short                       expected, actual
 *    2  version not 2                         version
 *    3  type differs                          actual, requested
 *    4  bytes too many                        expected, actual
 *    5  padding wrong on reading              (nothing)
 *    8  count above 31                        count
 *    9  padding not a multiple of 4           padding
 *   10  reference time above 16,777,215       the time
 *   11  body not a multiple of 4, or packet
 *       above 262,144 bytes                   body length
 *   12  a status word out of range            the first such place, from 0
 *   13  list above 16,384 entries             its length
 *   14  size limit below 8                    the limit
 *   15  output lacks room                     needed, present
 *   16  NACK store not 8,192 bytes            its length
 *   17  least length outside 4 to 262,144     it
 *
 * A slice passes as a pointer and a count of elements. An empty slice may have
 * any pointer; a list that is not empty is aligned for its elements; the
 * slices of one call do not overlap, and none is longer than 2^63 - 1 bytes.
 * No call keeps a pointer or any state, allocates, or reads or writes outside
 * what it was lent; calls on different memory may run at the same time. After
 * a refusal every lent byte is as it was; after an answer only the bytes, or
 * the list places, of the answer have changed.
 */
#ifndef BOGSLIPPER_H
#define BOGSLIPPER_H

#include <stdbool.h>
#include <stddef.h>
#include <stdint.h>

#ifdef __cplusplus
extern "C" {
#endif

typedef struct {
    uint64_t number;    /* 0: answered. Otherwise the refusal's number */
    uint64_t values[8]; /* the answer's or the refusal's values in order; the rest 0.
                           A signed value stands in its two's complement */
} bog_said;

/*
 * Header fields, each read alone.
 * Each wants 4 bytes and looks at nothing else. Refusals: 1.
 */

/* The version, the top 2 bits of byte 0. Values: version. */
bog_said bog_version(const uint8_t *data, size_t n);

/* The padding bit of byte 0. Values: 0 or 1. */
bog_said bog_padding_bit(const uint8_t *data, size_t n);

/* The count, the low 5 bits of byte 0. Values: count. */
bog_said bog_count(const uint8_t *data, size_t n);

/* The packet type, byte 1. Values: type. */
bog_said bog_packet_type(const uint8_t *data, size_t n);

/* The packet's length in bytes, from the 16-bit word at byte 2. Values: 4 to 262,144. */
bog_said bog_length(const uint8_t *data, size_t n);

/*
 * The padding count, the last byte of the packet's own length; longer data
 * pass. Values: 0 where the padding bit is clear; else 1, byte.
 * Refusals: 1 (4 bytes), 1 (bit set and not the whole packet).
 */
bog_said bog_padding(const uint8_t *data, size_t n);

/*
 * Checks that the data are one whole packet of a type and of a least length.
 * A padding count larger than the body passes. Values: none.
 * Refusals: 17, 1 (least), 2, 3, 1 (its length), 4, 5 (padding count 0).
 */
bog_said bog_check_packet(const uint8_t *data, size_t n, uint64_t least, uint8_t type);

/*
 * Compounds, packets of any type, and the plain packet writer.
 */

/*
 * The first pass over a compound: each packet's length and its own version,
 * padding on the last packet alone, and a padding count that fits: a multiple
 * of 4, not 0, at most the packet's length less 4. Expected lengths count from
 * the start of the data. Values: none.
 * Refusals: 1 (empty); then at each packet 1 (4 bytes), 2, 1 (its length), 5.
 * Chromium, Firefox and pion pad some packets by 1 to 3 bytes: 5. The calls on
 * one packet's bytes take such a packet.
 */
bog_said bog_compound_parse(const uint8_t *data, size_t n);

/*
 * Checks that the data are one whole packet of any type, padding not looked at.
 * Values: none. Refusals: 1 (4 bytes), 2, 1 (its length), 4.
 */
bog_said bog_unknown_parse(const uint8_t *data, size_t n);

/*
 * One step of the walk over a compound, from any offset.
 * Values: 0, next offset, start, length, body, padding of the packet found,
 * where 4 + body + padding is the length; or 1, n where the offset is at or
 * past the end and the walk is over. Start with offset 0 and go on with the
 * next offset; a refusal ends the walk, and on data that bog_compound_parse
 * accepted there is none.
 * Refusals: 1 (4 bytes), 1 (its length), 2 (this packet's own version), 5 (a
 * padding count that is 0, no multiple of 4, or above its length less 4).
 */
bog_said bog_walk_step(const uint8_t *data, size_t n, uint64_t offset);

/*
 * Writes a packet: header, body, padding (zeros, and their count as the last
 * byte; 0: no padding). Values: bytes written, 4 + body_n + padding.
 * Refusals: 8, 9, 11, 15 (bytes).
 */
bog_said bog_unknown_write(uint8_t count, uint8_t type, const uint8_t *body, size_t body_n,
                           uint8_t padding, uint8_t *out, size_t out_n);

/*
 * Generic NACK (RFC 4585, 6.2.1).
 * A store of 8,192 bytes is a set of numbers: number n at byte n / 8, bit
 * n mod 8, bit 0 worth 1. The caller lends zeroed bytes for the empty set.
 */

/* Adds a number to a store. Values: none. Refusals: 16. */
bog_said bog_nack_add(uint8_t *store, size_t store_n, uint16_t number);

/*
 * Lists the numbers of NACK entries in their order, repeats included; 1 to 3
 * trailing bytes are ignored. Values: numbers listed.
 * Refusals: 15 (list places).
 */
bog_said bog_nack_read(const uint8_t *data, size_t n, uint16_t *list, size_t list_n);

/*
 * Writes a store's numbers as entries of 4 bytes, ascending, none passing
 * 65,535; the empty set writes nothing. Values: bytes written, at most 15,424.
 * Refusals: 16, 15 (bytes).
 */
bog_said bog_nack_write(const uint8_t *store, size_t store_n, uint8_t *out, size_t out_n);

/*
 * TWCC blocks (draft-holmer-rmcat-transport-wide-cc-extensions-01).
 * A status word: -32,768 to 32,767 a delta in ticks of 250 microseconds,
 * 32,768 not received. Reading also gives 32,769, an entry without its delta,
 * and 32,770, a reserved symbol.
 */

/*
 * Lists the status words of a block; place k is packet base + k modulo 65,536.
 * Values: base, status count, reference time, feedback count, entries listed.
 * Refusals: 1 (8 bytes), 15 (list places).
 */
bog_said bog_twcc_read(const uint8_t *block, size_t n, int32_t *list, size_t list_n);

/*
 * Writes one block from the front of a list, of at most `limit` bytes where
 * `limited` is set (otherwise `limit` is not looked at). Go on with the
 * entries not taken; a limit of at least 24 takes one or more.
 * Values: bytes written, entries taken.
 * Refusals: 10, 13, 12, 14, 15 (bytes).
 */
bog_said bog_twcc_write(uint16_t base, uint32_t time, uint8_t feedback, const int32_t *list,
                        size_t list_n, bool limited, uint64_t limit, uint8_t *out,
                        size_t out_n);

/*
 * Arrivals, in ticks of 250 microseconds (3.1.5 of the draft). The first
 * received entry's delta counts from the block's reference time, each later
 * one's from the received entry before it. A cursor is two numbers, placed and
 * ticks; each block begins afresh:
 *
 *     bog_said at = bog_arrivals(time);
 *     if (at.number != 0)
 *         return refused(at.number, at.values);
 *     bool placed = at.values[0];
 *     int64_t ticks = (int64_t)at.values[1];
 *     for (k = 0; k < listed; k++) {
 *         at = bog_arrivals_next(placed, ticks, list[k]);
 *         placed = at.values[2];
 *         ticks = (int64_t)at.values[3];
 *         ... at.values[0] is 3: the packet arrived at `ticks` ...
 *     }
 */

/*
 * The cursor of a block with this reference time.
 * Values: placed (1), ticks (signed). Refusals: 10.
 */
bog_said bog_arrivals(uint32_t time);

/*
 * One entry's arrival, and the cursor for the next entry. Any word is
 * welcome, and any cursor.
 * Values: 0 missing (not received), 1 unreadable (no delta, a reserved symbol,
 * or a word outside -32,768 to 32,770), 2 unplaced (received, but behind an
 * unreadable entry), 3 arrived; the bits of the milliseconds as an IEEE 754
 * binary64, which are the ticks / 4 exactly (0 unless arrived); placed and
 * ticks (signed) for the next call, where an entry that arrived did so at those
 * ticks. A cursor that is not placed has ticks that nobody looks at, and 0 in an
 * answer. Ticks from 2^53 on, either way, have no exact milliseconds: an entry
 * that would arrive there is unplaced. No refusals.
 */
bog_said bog_arrivals_next(bool placed, int64_t ticks, int32_t word);

#ifdef __cplusplus
}
#endif

#endif
