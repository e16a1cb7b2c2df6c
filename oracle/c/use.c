/* Uses the header as a C caller does: an answer and a refusal of every call. */

#include "../../include/bogslipper.h"

#include <stdio.h>
#include <string.h>

static int checks, failures;

/* Counts one check, and names it where it fails. */
static void check(const char *name, bool holds)
{
    checks++;
    if (!holds) {
        failures++;
        printf("c: %s fails\n", name);
    }
}

/* Whether a call said this number and these values, and 0 in the places after them. */
static bool says(bog_said said, uint64_t number, uint64_t a, uint64_t b, uint64_t c, uint64_t d,
                 uint64_t e)
{
    const uint64_t values[8] = {a, b, c, d, e, 0, 0, 0};
    return said.number == number && memcmp(said.values, values, sizeof values) == 0;
}

/* Whether a step of the walk found this packet. */
static bool walked(bog_said said, uint64_t next, uint64_t start, uint64_t length, uint64_t body,
                   uint64_t padding)
{
    const uint64_t values[8] = {0, next, start, length, body, padding, 0, 0};
    return said.number == 0 && memcmp(said.values, values, sizeof values) == 0;
}

static bool same(const void *left, const void *right, size_t length)
{
    return memcmp(left, right, length) == 0;
}

static void use_header(void)
{
    const uint8_t packet[8] = {0xA3, 203, 0, 1, 9, 9, 9, 4};

    check("version", says(bog_version(packet, 8), 0, 2, 0, 0, 0, 0));
    check("version, short", says(bog_version(packet, 3), 1, 4, 3, 0, 0, 0));
    check("padding bit", says(bog_padding_bit(packet, 4), 0, 1, 0, 0, 0, 0));
    check("padding bit, short", says(bog_padding_bit(packet, 0), 1, 4, 0, 0, 0, 0));
    check("count", says(bog_count(packet, 4), 0, 3, 0, 0, 0, 0));
    check("count, short", says(bog_count(packet, 1), 1, 4, 1, 0, 0, 0));
    check("type", says(bog_packet_type(packet, 4), 0, 203, 0, 0, 0, 0));
    check("type, short", says(bog_packet_type(packet, 2), 1, 4, 2, 0, 0, 0));
    check("length", says(bog_length(packet, 4), 0, 8, 0, 0, 0, 0));
    check("length, short", says(bog_length(packet, 3), 1, 4, 3, 0, 0, 0));
    check("padding", says(bog_padding(packet, 8), 0, 1, 4, 0, 0, 0));
    check("padding, short", says(bog_padding(packet, 7), 1, 8, 7, 0, 0, 0));
    check("check", says(bog_check_packet(packet, 8, 4, 203), 0, 0, 0, 0, 0, 0));
    check("check, type", says(bog_check_packet(packet, 8, 4, 204), 3, 203, 204, 0, 0, 0));
}

static void use_compound(void)
{
    const uint8_t two[8] = {0x80, 0xCB, 0, 0, 0x40, 0xCB, 0, 0};
    const uint8_t padded[8] = {0xA0, 0xCB, 0, 0, 0x80, 0xCB, 0, 0};
    const uint8_t fits[8] = {0xA0, 0xCB, 0, 1, 0, 0, 0, 4};
    const uint8_t uneven[8] = {0xA0, 0xCB, 0, 1, 0, 0, 0, 2};

    check("compound", says(bog_compound_parse(two, 4), 0, 0, 0, 0, 0, 0));
    check("compound, version", says(bog_compound_parse(two, 8), 2, 1, 0, 0, 0, 0));
    check("compound, padding", says(bog_compound_parse(padded, 8), 5, 0, 0, 0, 0, 0));
    check("compound, count", says(bog_compound_parse(fits, 8), 0, 0, 0, 0, 0, 0));
    check("compound, wrong count", says(bog_compound_parse(uneven, 8), 5, 0, 0, 0, 0, 0));
    check("packet", says(bog_unknown_parse(two, 4), 0, 0, 0, 0, 0, 0));
    check("packet, long", says(bog_unknown_parse(two, 8), 4, 4, 8, 0, 0, 0));
    check("step", walked(bog_walk_step(two, 8, 0), 4, 0, 4, 0, 0));
    check("step, padded", walked(bog_walk_step(fits, 8, 0), 8, 0, 8, 0, 4));
    check("step, wrong count", says(bog_walk_step(uneven, 8, 0), 5, 0, 0, 0, 0, 0));
    check("step, over", says(bog_walk_step(two, 8, 9), 0, 1, 8, 0, 0, 0));
    check("step, version", says(bog_walk_step(two, 8, 4), 2, 1, 0, 0, 0, 0));
}

static void use_unknown_write(void)
{
    const uint8_t body[4] = {1, 2, 3, 4};
    const uint8_t packet[12] = {0xA5, 250, 0, 2, 1, 2, 3, 4, 0, 0, 0, 4};
    uint8_t out[12] = {0};
    const uint8_t untouched[12] = {0};

    check("write, room", says(bog_unknown_write(5, 250, body, 4, 4, out, 11), 15, 12, 11, 0, 0, 0));
    check("write, room, bytes", same(out, untouched, 12));
    check("write", says(bog_unknown_write(5, 250, body, 4, 4, out, 12), 0, 12, 0, 0, 0, 0));
    check("write, bytes", same(out, packet, 12));
    check("write, empty body", says(bog_unknown_write(0, 0, NULL, 0, 0, out, 12), 0, 4, 0, 0, 0, 0));
}

static void use_nack(void)
{
    static uint8_t store[8192];
    const uint8_t entries[8] = {0, 0, 0x80, 0, 0xFF, 0xFF, 0, 0};
    const uint16_t numbers[3] = {0, 16, 65535};
    uint8_t out[8] = {0};
    uint16_t list[3] = {0};
    int i;

    for (i = 0; i < 3; i++)
        check("add", says(bog_nack_add(store, 8192, numbers[i]), 0, 0, 0, 0, 0, 0));
    check("add, store", says(bog_nack_add(store, 8191, 0), 16, 8191, 0, 0, 0, 0));
    check("nack write", says(bog_nack_write(store, 8192, out, 8), 0, 8, 0, 0, 0, 0));
    check("nack write, bytes", same(out, entries, 8));
    check("nack write, room", says(bog_nack_write(store, 8192, out, 7), 15, 8, 7, 0, 0, 0));
    check("nack read", says(bog_nack_read(entries, 8, list, 3), 0, 3, 0, 0, 0, 0));
    check("nack read, list", same(list, numbers, sizeof list));
    check("nack read, room", says(bog_nack_read(entries, 8, list, 2), 15, 3, 2, 0, 0, 0));
}

static void use_twcc_read(void)
{
    const uint8_t block[11] = {0, 5, 0, 2, 0, 0, 1, 7, 0xF4, 0, 9};
    const int32_t words[2] = {32770, 9};
    int32_t list[2] = {0};

    check("twcc read", says(bog_twcc_read(block, 11, list, 2), 0, 5, 2, 1, 7, 2));
    check("twcc read, list", same(list, words, sizeof list));
    check("twcc read, short", says(bog_twcc_read(block, 7, list, 2), 1, 8, 7, 0, 0, 0));
}

static void use_twcc_write(void)
{
    const int32_t one[1] = {255};
    const int32_t nine[9] = {0};
    const uint8_t block[12] = {0, 1, 0, 1, 0, 0, 0, 0, 0xD0, 0, 0xFF, 0};
    uint8_t out[12];

    memset(out, 0x55, sizeof out);
    check("twcc write", says(bog_twcc_write(1, 0, 0, one, 1, false, 0, out, 12), 0, 12, 1, 0, 0, 0));
    check("twcc write, bytes", same(out, block, 12));
    check("twcc write, limit",
          says(bog_twcc_write(1, 0, 0, nine, 9, true, 12, out, 12), 0, 12, 1, 0, 0, 0));
    check("twcc write, time",
          says(bog_twcc_write(1, 16777216, 0, one, 1, false, 0, out, 12), 10, 16777216, 0, 0, 0, 0));
}

/* The milliseconds that a step answered. */
static double milliseconds(bog_said said)
{
    double answer;
    memcpy(&answer, &said.values[1], sizeof answer);
    return answer;
}

static void use_arrivals(void)
{
    const int32_t words[5] = {4, 32768, -8, 32769, 4};
    const uint64_t cases[5] = {3, 0, 3, 1, 2};
    const double times[5] = {65, 0, 63, 0, 0};
    bog_said at = bog_arrivals(1);
    int k;

    check("arrivals", says(at, 0, 1, 256, 0, 0, 0));
    check("arrivals, time", says(bog_arrivals(16777216), 10, 16777216, 0, 0, 0, 0));
    at.values[2] = at.values[0];
    at.values[3] = at.values[1];
    for (k = 0; k < 5; k++) {
        at = bog_arrivals_next(at.values[2] != 0, (int64_t)at.values[3], words[k]);
        check("arrivals next, case", at.number == 0 && at.values[0] == cases[k]);
        check("arrivals next, milliseconds", milliseconds(at) == times[k]);
    }
    check("arrivals next, lost", says(at, 0, 2, 0, 0, 0, 0));
    check("arrivals next, below zero",
          says(bog_arrivals_next(true, 0, -1), 0, 3, 0xBFD0000000000000, 1, UINT64_MAX, 0));
    check("arrivals next, not exact", says(bog_arrivals_next(true, INT64_MAX, 1), 0, 2, 0, 0, 0, 0));
}

int main(void)
{
    use_header();
    use_compound();
    use_unknown_write();
    use_nack();
    use_twcc_read();
    use_twcc_write();
    use_arrivals();
    printf("c: %d checks, %d failures\n", checks, failures);
    return failures != 0;
}
