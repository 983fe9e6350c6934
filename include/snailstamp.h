/* Snailstamp's boundary for C: `tools/archive` writes target/staticlib/libsnailstamp.a. docs/BOUNDARY.md has each
 * function's order of refusals.
 *
 * Every function takes any numbers and any slices, ends, and does its work or refuses by a number of the red card; a
 * refusal changes nothing. A slice is a pointer and its length in elements. Slices do not overlap; an empty one may come
 * with any pointer.
 *
 * An answer is value * 256 + number. Number 0 is done, and the value is then the count that the function names. For 3 and
 * 4 the value is an offset or an index, for 10 the number of a line, counted from 1, else 0. */
#ifndef SNAILSTAMP_H
#define SNAILSTAMP_H

#include <stddef.h>
#include <stdint.h>

#ifdef __cplusplus
extern "C" {
#endif

/* The tally's words, in their order: unit, policy, capacity, places, catalogue, L, bytes kept, files kept, requests, hits,
 * admitted, passed, evicted, bytes asked, hit bytes, cost asked, hit cost, dropped, lifts. */
#define SNAILSTAMP_TALLY_WORDS 19

/* A run has at most so many requests; more are refused 5. */
#define SNAILSTAMP_MOST_REQUESTS UINT64_C(4294967295)

/* What a lift takes from L and from every key, before a request when L has reached it. Lifts times this, plus L, is the
 * inflation of the whole run, and so for a key. */
#define SNAILSTAMP_LIFT UINT64_C(1152921504606846976)

/* Unit, policy, capacity, places, catalogue. */
#define SNAILSTAMP_SETTINGS_WORDS 5

static inline uint64_t snailstamp_number(uint64_t answer) { return answer % 256; }
static inline uint64_t snailstamp_value(uint64_t answer) { return answer / 256; }

/* A fresh start over anybody's old tables: place needs an entry for each file number of the catalogue, every other table
 * one for each place. Value when done: 0. */
uint64_t snailstamp_fresh(uint64_t unit, uint64_t policy, uint64_t capacity, uint64_t places, uint64_t catalogue,
                          uint64_t *tally, size_t tally_length,
                          uint16_t *place, size_t place_length,
                          uint16_t *file, size_t file_length,
                          uint32_t *size, size_t size_length,
                          uint16_t *cost, size_t cost_length,
                          uint32_t *freq, size_t freq_length,
                          uint64_t *key, size_t key_length,
                          uint64_t *stamp, size_t stamp_length,
                          uint16_t *queue, size_t queue_length);

/* Carries a run on over a further part of its trace, only under the unit that its tally names. Value when done: events
 * written. An event is kind * 32768 + file; kinds are 1 hit, 2 admit, 3 big, 4 low, 5 evict, 6 stale. A stale copy is a
 * kept one whose size is not the request's: it is dropped, and the request goes on as a miss. No event depends on a lift,
 * and a call without requests makes none. */
uint64_t snailstamp_carry_on(uint64_t unit,
                             uint64_t *tally, size_t tally_length,
                             uint16_t *place, size_t place_length,
                             uint16_t *file, size_t file_length,
                             uint32_t *size, size_t size_length,
                             uint16_t *cost, size_t cost_length,
                             uint32_t *freq, size_t freq_length,
                             uint64_t *key, size_t key_length,
                             uint64_t *stamp, size_t stamp_length,
                             uint16_t *queue, size_t queue_length,
                             const uint8_t *part, size_t part_length,
                             uint32_t *events, size_t events_length);

/* The settings and the requests of a trace file. Value when done: requests read. */
uint64_t snailstamp_read_file(const uint8_t *trace, size_t trace_length,
                              uint64_t *settings, size_t settings_length,
                              uint16_t *files, size_t files_length,
                              uint32_t *sizes, size_t sizes_length,
                              uint16_t *costs, size_t costs_length);

/* The requests of a further part. Value when done: requests read. */
uint64_t snailstamp_read_part(uint64_t catalogue,
                              const uint8_t *part, size_t part_length,
                              uint16_t *files, size_t files_length,
                              uint32_t *sizes, size_t sizes_length,
                              uint16_t *costs, size_t costs_length);

/* A trace file of these settings and requests; the file list fixes their count. Value when done: bytes written. */
uint64_t snailstamp_write_file(uint64_t unit, uint64_t policy, uint64_t capacity, uint64_t places, uint64_t catalogue,
                               const uint16_t *files, size_t files_length,
                               const uint32_t *sizes, size_t sizes_length,
                               const uint16_t *costs, size_t costs_length,
                               uint8_t *out, size_t out_length);

/* A further part of these requests. Value when done: bytes written. */
uint64_t snailstamp_write_part(uint64_t catalogue,
                               const uint16_t *files, size_t files_length,
                               const uint32_t *sizes, size_t sizes_length,
                               const uint16_t *costs, size_t costs_length,
                               uint8_t *out, size_t out_length);

/* The sheet of a trace file, as the program prints it; a refusal's line is a sheet too. Value when done: bytes of the
 * sheet. 6 where out is shorter than the sheet. */
uint64_t snailstamp_sheet(const uint8_t *trace, size_t trace_length, uint8_t *out, size_t out_length);

/* A trace file of these settings and of what a Squid native access log counts: its GET lines with status 200, in order.
 * docs/SQUID.md says what each field of a line becomes. 10 is for a line that lacks a field, or a counted one with a bad
 * number or range. Value when done: bytes written, never more than the log's length and 17 for the settings. */
uint64_t snailstamp_squid_file(uint64_t unit, uint64_t policy, uint64_t capacity, uint64_t places, uint64_t catalogue,
                               const uint8_t *log, size_t log_length,
                               uint8_t *out, size_t out_length);

/* A further part of what the log counts. Value when done: bytes written, never more than the log's length. */
uint64_t snailstamp_squid_part(uint64_t catalogue,
                               const uint8_t *log, size_t log_length,
                               uint8_t *out, size_t out_length);

/* The ratios of a tally: ratios[0] is hits by requests, ratios[1] hit bytes by bytes asked, each one division rounded once,
 * to nearest as C programs start out. Both lie between 0 and 1, never a NaN: 1 only where the counts are equal, 0 only
 * where nothing hit. 11 is for a tally without requests; 7 for one whose hits, admitted and passed do not add up to its
 * requests, or whose requests, bytes asked or hit bytes are out of bounds; 12 for one with more than 9007199254740992
 * bytes asked, which a double may not hold; no other word is judged. Value when done: 0; entries past two are never
 * written. */
uint64_t snailstamp_ratios(const uint64_t *tally, size_t tally_length, double *ratios, size_t ratios_length);

#ifdef __cplusplus
}
#endif

#endif
