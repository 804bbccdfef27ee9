/*
 * Vundrelt for C: a night from bytes to bytes, and site files.
 *
 * Link libhouse.a (scripts/library makes it; x86-64 Linux). The library keeps nothing between calls, asks the
 * system for nothing, and may be called from any number of threads at the same time.
 *
 * Each call but vundrelt_night_length returns the number of document 01's list: 0 where it is done, else
 * the one named with the call. Every call takes whatever bytes and numbers it is handed. Beside a
 * refusal each number given back through a pointer is 0, and an output buffer is as it came, byte for byte.
 * Bytes of an output buffer behind what is written are never touched.
 *
 * Buffers. A buffer is a pointer and a length in bytes. Where the length is 0, nothing is read or written
 * through the pointer, and it may be null. Every other pointer points to what its type says. What a call
 * writes to (an output buffer, `written`, `site`, `stamps`, `values` of the reader) overlaps nothing else
 * that the call is handed. What it only reads may overlap.
 *
 * Stack. vundrelt_night and vundrelt_night_length use up to 1 MiB of the caller's stack, the others up to
 * 4 KiB. No call uses the heap.
 */
#ifndef VUNDRELT_H
#define VUNDRELT_H

#include <stddef.h>
#include <stdint.h>

#ifdef __cplusplus
extern "C" {
#endif

/* The numbers that these calls return. */
#define VUNDRELT_DONE 0
#define VUNDRELT_NOT_A_SITE_FILE 18
#define VUNDRELT_NOT_WRITTEN 19

/* Items of a site: 6 x movement + position. */
#define VUNDRELT_ITEMS 24

/* A site file has 8 to 248 bytes. */
#define VUNDRELT_SITE_FILE_MOST 248

/*
 * How many bytes the lines of a night are: the output that vundrelt_night asks for. Where that is no
 * number of 64 bits, the largest of them (SIZE_MAX); no output is so long.
 */
size_t vundrelt_night_length(const uint8_t *input, size_t input_length);

/*
 * Runs a night from a fresh table and writes a line for each record at the front of the output, the same
 * bytes that the bench program prints. It goes through the night twice, once for the length of the lines. The input is one byte, the site count, then step records. An input
 * that is empty, cut or spoiled is no refusal: its lines say so (0 17 .., 0 3 .., n 17 ..).
 *
 * Returns 0, and *written is the number of bytes written; or 19 where the output is too short for all of
 * the lines: then nothing is written and *written is 0.
 */
uint8_t vundrelt_night(const uint8_t *input, size_t input_length, uint8_t *output, size_t output_length,
                       size_t *written);

/*
 * Reads a site file. The input is the whole file and nothing more.
 *
 * Returns 0, and gives the site (1 to 7) and for each item its stamp and its value in hundredths of a
 * second a day; stamp 0 marks an item never measured, whose value is 0. Or 18 where the bytes are no site
 * file: then the site and every stamp and value is 0.
 */
uint8_t vundrelt_read_site_file(const uint8_t *input, size_t input_length, uint8_t *site,
                                uint64_t stamps[VUNDRELT_ITEMS], int32_t values[VUNDRELT_ITEMS]);

/*
 * Writes the site file of some readings at the front of the output.
 *
 * Returns 0, and *written is the length of the file (8 + 10 for each measured item). Or 19 where the output
 * is too short, the site is not 1 to 7, a reading could not be read back, or an item of stamp 0 has a
 * value: then nothing is written and *written is 0.
 */
uint8_t vundrelt_write_site_file(uint8_t site, const uint64_t stamps[VUNDRELT_ITEMS],
                                 const int32_t values[VUNDRELT_ITEMS], uint8_t *output, size_t output_length,
                                 size_t *written);

#ifdef __cplusplus
}
#endif

#endif
