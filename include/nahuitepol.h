/*
 * Nahuitepol: exact search for a probe in a stream, and draw logs, written and checked for overlaps.
 *
 * A lent array is a pointer and the count of its elements (not of its bytes). The pointer may be NULL where
 * the count is 0. A const array is read only. A "room" is an array that the call may write to: a room for both
 * tables holds 16-bit numbers, the writer's output room holds bytes, and all others hold 32-bit numbers. A room
 * may be longer than needed; what a call does not promise to write stays as it was, and what a room holds before
 * the call does not matter.
 *
 * THE CALLER'S ONE DUTY, beyond lending as many elements as each count says: lent rooms overlap neither each
 * other nor the inputs. With that kept, every input gets an answer.
 *
 * REFUSALS. Every answer has a refusal number; 0 says that the call did its work. On a refusal every lent room
 * is unchanged and every other number of the answer is 0, but for the entry number beside 15, 16 and 17.
 *
 *   No.  Cause
 *    1   probe has no bytes
 *    2   probe over 4,096 bytes
 *    3   stream over 16,777,216 bytes
 *    4   a work room is too short for a probe of m bytes (in the check, m is 8p): the room for both tables has
 *        fewer than 2m numbers, or the room for one of them or for the memory fewer than m
 *    5   result room of the check below 4 * c * (c - 1) numbers, for c replicates
 *   10   log under 12 bytes
 *   11   log over 65,536 bytes (in the writer: it would be)
 *   12   mark wrong
 *   13   directory count not 1 to 64 (in the writer: the number of ids)
 *   14   directory start + 12 * count + 12 differs from the log's length
 *   15   id not above the one before
 *   16   block not where the previous one ended (the first: not at byte 0), or last end not the directory start
 *   17   block length no multiple of 8
 *   18   no replicate with this id
 *   20   p not 1 to 512
 *   22   number of block bytes differs from the sum of the lengths
 *   23   output room shorter than the log
 *   31   ids and lengths differ in number
 *
 * Where several causes hold, the number is that of the first in the order in which they are tested:
 *   tables and searches   1, 2, 3, 4
 *   log test              10, 11, 12, 13, 14; then each entry in turn for 15, 16, 17; then the last end (16)
 *   lookup                the log test, then 18
 *   writer                31, 13; then each entry in turn for 15, 17; then 22, 11, 23
 *   check                 the log test, then 20, 4, 5
 * 15, 16 and 17 carry the number of their entry, from 0; a wrong last end is 16 and carries the count. All
 * other refusals carry entry 0.
 */
#ifndef NAHUITEPOL_H
#define NAHUITEPOL_H

#include <stddef.h>
#include <stdint.h>

#ifdef __cplusplus
extern "C" {
#endif

/* The answers. */

/* The occurrence table of a probe, with an entry for each byte; 256 zeros beside a refusal. */
typedef struct {
    uint32_t refusal;
    uint32_t table[256];
} nahui_occurrences;

/* The answer of a search. */
typedef struct {
    uint32_t refusal;
    uint32_t entry;       /* always 0: a search has no entries */
    uint64_t occurrences; /* of the probe in the stream, whether or not the position room took them */
    uint64_t written;     /* positions written: the smaller of occurrences and positions_len */
    uint64_t windows;     /* windows visited */
    uint64_t comparisons; /* comparisons of a stream byte with a probe byte */
    uint64_t closest;     /* most trailing probe bytes that equal the stream at one of the windows visited */
    uint64_t closest_at;  /* where the first window that reached it starts; with no window both are 0 */
} nahui_searched;

/* The answer of the log test. */
typedef struct {
    uint32_t refusal;
    uint32_t entry;
    uint32_t count; /* replicates in the log */
} nahui_tested;

/* The answer of the lookup: the block of a replicate as a stretch of the log. */
typedef struct {
    uint32_t refusal;
    uint32_t entry;
    uint32_t start;  /* first byte of the block, from the log's start */
    uint32_t length; /* in bytes; may be 0 */
} nahui_found;

/* The answer of the writer. */
typedef struct {
    uint32_t refusal;
    uint32_t entry;
    uint32_t length; /* bytes of the log, from the front of the output room on */
} nahui_written;

/* The answer of the overlap check. */
typedef struct {
    uint32_t refusal;
    uint32_t entry;
    uint32_t pairs;    /* overlapping pairs; the first 4 * pairs numbers of the result room tell them */
    uint32_t unprobed; /* owners whose block is shorter than 8p bytes */
} nahui_checked;

/*
 * The tables of a probe x of m = probe_len bytes, 1 to 4,096. All indices run from 0.
 */

/*
 * Writes the suffix table to the first m entries of room: entry i is the length of the longest common suffix
 * of x[0..i] and x. Answers the refusal: 0, 1, 2 or 4.
 *   room   at least m entries; those from m on stay as they were
 */
uint32_t nahui_suffix(const uint8_t *probe, size_t probe_len, uint32_t *room, size_t room_len);

/*
 * Writes the shift table to the first m entries of room: entry i is the smallest s from 1 to m such that
 *   s <= i:  x[i-s+1..m-s-1] equals x[i+1..m-1], and x[i-s] differs from x[i];
 *   s >  i:  x[0..m-s-1] is a suffix of x.
 * Entry 0 is the period of x. Answers the refusal: 0, 1, 2 or 4.
 *   room   at least m entries; those from m on stay as they were
 */
uint32_t nahui_shift(const uint8_t *probe, size_t probe_len, uint32_t *room, size_t room_len);

/*
 * Writes both tables to the first 2m numbers of room, in pairs: for each index the suffix entry, then the shift
 * entry. Answers the refusal: 0, 1, 2 or 4.
 *   room   at least 2m numbers; those from 2m on stay as they were
 */
uint32_t nahui_tables(const uint8_t *probe, size_t probe_len, uint16_t *room, size_t room_len);

/*
 * Answers the occurrence table by value: for byte a the smallest k from 1 to m - 1 with x[m-1-k] = a, and m
 * where there is none. The refusal is 0, 1 or 2.
 */
nahui_occurrences nahui_occurrence(const uint8_t *probe, size_t probe_len);

/*
 * The searches: all positions of a probe of m = probe_len bytes, 1 to 4,096, in a stream of n = stream_len
 * bytes, 0 to 16,777,216. The refusal is 0, 1, 2, 3 or 4. Both find the same positions at the same windows, and
 * with position rooms of one length they answer equal numbers but for the comparisons; the remembering scan
 * never makes more of these than the plain one, and for n >= m at most 2n - m + 1.
 *
 * Both tell how close they came: closest is the greatest number, over the windows visited, of trailing probe
 * bytes that equal the stream there, and closest_at is where the first window that reached it starts. So where
 * the probe occurs they are m and its first position. An offset that the scan passes over does not count.
 *
 *   tables      work room of at least 2m numbers; ends with the pairs of nahui_tables in its first 2m numbers
 *   memory      work room of at least m entries; ends with 0 in its first m entries
 *   positions   takes the first positions, ascending, as far as it reaches; it may have any length, and entries
 *               beyond those written stay as they were
 *
 * For n < m the search succeeds: the rooms end as said, and the six numbers are 0.
 */

/* Searches by the plain Boyer-Moore scan. */
nahui_searched nahui_plain(const uint8_t *probe, size_t probe_len,
                           const uint8_t *stream, size_t stream_len,
                           uint16_t *tables, size_t tables_len,
                           uint32_t *positions, size_t positions_len);

/* Searches by the remembering scan after Apostolico and Giancarlo. */
nahui_searched nahui_remember(const uint8_t *probe, size_t probe_len,
                              const uint8_t *stream, size_t stream_len,
                              uint16_t *tables, size_t tables_len,
                              uint32_t *memory, size_t memory_len,
                              uint32_t *positions, size_t positions_len);

/*
 * Draw logs, of 12 to 65,536 bytes. All their numbers are 32-bit, low byte first: the blocks, back to back
 * from byte 0; the directory, 12 bytes for each of 1 to 64 replicates (id, start, length in bytes), ids rising
 * strictly; and the last 12 bytes (directory start, count, and the mark "DRAW").
 */

/* Tests a log and answers its number of replicates. The refusal is 0 or 10 to 17. */
nahui_tested nahui_log_test(const uint8_t *log, size_t log_len);

/* Looks up the block of the replicate with this id. The refusal is 0 or 10 to 18. */
nahui_found nahui_log_find(const uint8_t *log, size_t log_len, uint32_t id);

/*
 * Writes a log: to the front of out the blocks, then the directory and the trailer that fit them. The log test
 * accepts it, and the lookup finds each id with its block. Entry k has id ids[k] and the next lengths[k] bytes
 * of blocks. The refusal is 0, 31, 13, 15, 17, 22, 11 or 23.
 *
 *   blocks         the bytes of all blocks, back to back, as many as the lengths say together
 *   ids, lengths   1 to 64 each and as many of one as of the other; ids rise strictly, and lengths, in bytes,
 *                  are multiples of 8 and may be 0
 *   out            at least blocks_len + 12 * ids_len + 12 bytes; those beyond the log stay as they were
 */
nahui_written nahui_log_write(const uint8_t *blocks, size_t blocks_len,
                              const uint32_t *ids, size_t ids_len,
                              const uint32_t *lengths, size_t lengths_len,
                              uint8_t *out, size_t out_len);

/*
 * The overlap check. The probe of owner a is the first p draws (8p bytes) of its block, p from 1 to 512; an
 * owner with a shorter block is unprobed. Every other block b is searched for it. The pair overlaps where the
 * probe occurs at an offset from the start of b's block that is a multiple of 8, where a draw begins: an
 * occurrence inside a draw, which a search reports, is no overlap. The refusal is 0, 10 to 17, 20, 4 or 5.
 *
 *   tables   work room of at least 16p numbers, the first 16p of which end at 0
 *   memory   work room of at least 8p entries, the first 8p of which end at 0
 *   result   at least 4 * c * (c - 1) numbers for c replicates; takes four numbers for each overlapping pair,
 *            owners ascending, then b ascending: id of a, id of b, the first such offset in bytes, and how many
 *            such offsets there are; the rest stays as it was
 *
 * The work rooms are asked for, and end so, whether or not any owner is probed.
 */
nahui_checked nahui_check(const uint8_t *log, size_t log_len, uint32_t p,
                          uint16_t *tables, size_t tables_len,
                          uint32_t *memory, size_t memory_len,
                          uint32_t *result, size_t result_len);

#ifdef __cplusplus
}
#endif

#endif
