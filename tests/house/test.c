/* Calls every function of include/vundrelt.h from C. Prints what fails; the exit is non-zero where anything does. */
#include "vundrelt.h"

#include <stdio.h>
#include <string.h>

#define FILL 0xa5

static int failures;

static void check(int holds, const char *what, int line)
{
    if (!holds) {
        printf("test.c:%d: %s\n", line, what);
        failures++;
    }
}

#define CHECK(holds) check((holds), #holds, __LINE__)

/* Document 01's worked example. */
static const uint8_t worked[] = {
    3,
    1, 20, 0, 1, 0xe8, 3, 0, 0, 1, 0, 0, 1, 0, 0, 0, 0, 0, 0, 0, 0xa2, 0xfe, 0xff, 0xff,
    1, 20, 0, 2, 0xe8, 3, 0, 0, 1, 0, 0, 1, 0, 0, 0, 0, 0, 0, 0, 0xd2, 0, 0, 0,
    2, 7, 0, 1, 0x41, 0x1f, 0, 0, 0, 3,
    3, 1, 0, 0,
    2, 7, 0, 2, 0x42, 0x1f, 0, 0, 0, 3,
    3, 1, 0, 1,
    8, 2, 0, 3, 0,
};

static const char worked_lines[] =
    "1 0 8001 0 0 0\n"
    "2 0 8002 1 0 0\n"
    "3 0 0 0 0 0\n"
    "4 0 0 0 1 0\n"
    "5 0 1 0 0 0\n"
    "6 0 0 0 0 0\n"
    "7 0 -350 8001 0 0\n";

/* Whether each of n bytes is still the one that every test buffer is filled with. */
static int untouched(const uint8_t *bytes, size_t n)
{
    for (size_t i = 0; i < n; i++)
        if (bytes[i] != FILL)
            return 0;
    return 1;
}

/* A night whose lines are known: with room to spare, with just enough, and one byte too short. */
static void expect_night(const uint8_t *input, size_t input_length, const char *lines)
{
    static uint8_t output[70000];
    size_t n = strlen(lines);
    size_t written = 77;

    CHECK(n + 100 <= sizeof output);
    CHECK(vundrelt_night_length(input, input_length) == n);

    memset(output, FILL, sizeof output);
    CHECK(vundrelt_night(input, input_length, output, n + 100, &written) == VUNDRELT_DONE);
    CHECK(written == n);
    CHECK(memcmp(output, lines, n) == 0);
    CHECK(untouched(output + n, sizeof output - n));

    memset(output, FILL, sizeof output);
    written = 77;
    CHECK(vundrelt_night(input, input_length, output, n, &written) == VUNDRELT_DONE);
    CHECK(written == n);
    CHECK(memcmp(output, lines, n) == 0);
    CHECK(untouched(output + n, sizeof output - n));

    memset(output, FILL, sizeof output);
    written = 77;
    CHECK(vundrelt_night(input, input_length, output, n - 1, &written) == VUNDRELT_NOT_WRITTEN);
    CHECK(written == 0);
    CHECK(untouched(output, sizeof output));
}

static void nights(void)
{
    static const uint8_t eight[] = {8, 3, 1, 0, 0};
    static const uint8_t one[] = {1};
    static const uint8_t cut[] = {1, 3, 1};
    static const uint8_t unknown[] = {1, 9, 2, 0, 5, 6, 3, 2, 0, 0, 0};
    uint8_t byte = FILL;
    size_t written = 77;

    expect_night(worked, sizeof worked, worked_lines);
    expect_night(worked, 0, "0 17 0 0 0 0\n");
    expect_night(NULL, 0, "0 17 0 0 0 0\n");
    expect_night(eight, sizeof eight, "0 3 0 0 0 0\n");
    expect_night(cut, sizeof cut, "1 17 0 0 0 0\n");
    expect_night(unknown, sizeof unknown, "1 2 0 0 0 0\n2 17 0 0 0 0\n");

    /* no records: nothing to write, which fits an output of no bytes */
    CHECK(vundrelt_night_length(one, 1) == 0);
    CHECK(vundrelt_night(one, 1, &byte, 1, &written) == VUNDRELT_DONE);
    CHECK(written == 0 && byte == FILL);
    written = 77;
    CHECK(vundrelt_night(one, 1, NULL, 0, &written) == VUNDRELT_DONE);
    CHECK(written == 0);

    /* no output at all */
    written = 77;
    CHECK(vundrelt_night(worked, sizeof worked, NULL, 0, &written) == VUNDRELT_NOT_WRITTEN);
    CHECK(written == 0);
}

/* Many records: the lines of several runs, one behind the other. */
static void long_night(void)
{
    static uint8_t input[1 + 4 * 4000 + 2];
    static char lines[70000];
    size_t n = 0;

    input[0] = 7;
    for (int i = 0; i < 4000; i++) {
        uint8_t *record = input + 1 + 4 * i;
        record[0] = i % 2 ? 6 : 5; /* down and up, in turn */
        record[1] = 1;
        record[2] = 0;
        record[3] = (uint8_t)(1 + i / 2 % 7);
        n += (size_t)sprintf(lines + n, "%d 0 0 0 0 0\n", i + 1);
    }
    input[1 + 4 * 4000] = 5;
    input[1 + 4 * 4000 + 1] = 1;
    sprintf(lines + n, "4001 17 0 0 0 0\n");
    expect_night(input, sizeof input, lines);
}

static void site_files(void)
{
    uint64_t stamps[VUNDRELT_ITEMS] = {0}, read_stamps[VUNDRELT_ITEMS];
    int32_t values[VUNDRELT_ITEMS] = {0}, read_values[VUNDRELT_ITEMS];
    uint8_t file[300], again[300], site = 0;
    size_t written = 77;

    stamps[0] = 8001;
    values[0] = -350;
    stamps[5] = 8010;
    stamps[7] = 9875;
    values[7] = 42;
    stamps[23] = 34359738361;
    values[23] = -8640000;

    /* written, with the bytes behind the file as they came */
    memset(file, FILL, sizeof file);
    CHECK(vundrelt_write_site_file(2, stamps, values, file, sizeof file, &written) == VUNDRELT_DONE);
    CHECK(written == 48);
    CHECK(untouched(file + 48, sizeof file - 48));
    CHECK(memcmp(file, "\x00\x41\x1f\x00\x00\x00\xa2\xfe\xff\xff", 10) == 0);
    CHECK(memcmp(file + 40, "\x02\x04\x28\x00\xc4\xc6\x4e\xc0", 8) == 0);

    /* read back */
    memset(read_stamps, FILL, sizeof read_stamps);
    memset(read_values, FILL, sizeof read_values);
    CHECK(vundrelt_read_site_file(file, 48, &site, read_stamps, read_values) == VUNDRELT_DONE);
    CHECK(site == 2);
    CHECK(memcmp(stamps, read_stamps, sizeof stamps) == 0);
    CHECK(memcmp(values, read_values, sizeof values) == 0);

    /* an output of just that length, and one byte less */
    memset(again, FILL, sizeof again);
    CHECK(vundrelt_write_site_file(2, stamps, values, again, 48, &written) == VUNDRELT_DONE);
    CHECK(written == 48 && memcmp(file, again, sizeof file) == 0);
    memset(again, FILL, sizeof again);
    written = 77;
    CHECK(vundrelt_write_site_file(2, stamps, values, again, 47, &written) == VUNDRELT_NOT_WRITTEN);
    CHECK(written == 0 && untouched(again, sizeof again));
    written = 77;
    CHECK(vundrelt_write_site_file(2, stamps, values, NULL, 0, &written) == VUNDRELT_NOT_WRITTEN);
    CHECK(written == 0);

    /* a site and readings that are not allowed */
    CHECK(vundrelt_write_site_file(0, stamps, values, again, sizeof again, &written) == VUNDRELT_NOT_WRITTEN);
    CHECK(vundrelt_write_site_file(8, stamps, values, again, sizeof again, &written) == VUNDRELT_NOT_WRITTEN);
    values[1] = 1;
    CHECK(vundrelt_write_site_file(2, stamps, values, again, sizeof again, &written) == VUNDRELT_NOT_WRITTEN);
    values[1] = 0;
    values[0] = 8640001;
    CHECK(vundrelt_write_site_file(2, stamps, values, again, sizeof again, &written) == VUNDRELT_NOT_WRITTEN);
    CHECK(untouched(again, sizeof again));

    /* every byte of the file damaged in turn, and every length but the right one */
    for (size_t i = 0; i < 48; i++) {
        memset(read_stamps, FILL, sizeof read_stamps);
        memset(read_values, FILL, sizeof read_values);
        site = FILL;
        file[i] ^= 0x10;
        CHECK(vundrelt_read_site_file(file, 48, &site, read_stamps, read_values) == VUNDRELT_NOT_A_SITE_FILE);
        file[i] ^= 0x10;
        CHECK(site == 0);
        for (int j = 0; j < VUNDRELT_ITEMS; j++)
            CHECK(read_stamps[j] == 0 && read_values[j] == 0);
        CHECK(vundrelt_read_site_file(file, i, &site, read_stamps, read_values) == VUNDRELT_NOT_A_SITE_FILE);
    }
    CHECK(vundrelt_read_site_file(file, 49, &site, read_stamps, read_values) == VUNDRELT_NOT_A_SITE_FILE);
    CHECK(vundrelt_read_site_file(NULL, 0, &site, read_stamps, read_values) == VUNDRELT_NOT_A_SITE_FILE);
}

int main(void)
{
    nights();
    long_night();
    site_files();
    if (failures) {
        printf("test.c: %d failed\n", failures);
        return 1;
    }
    printf("test.c: all passed\n");
    return 0;
}
