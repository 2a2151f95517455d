/*
 * The writer of logs from C, with known answers.
 */
#include "nahuitepol.h"
#include "support.h"

#include <string.h>

/* More than 32 bits can tell. */
#define VAST ((size_t)1 << 32)

/* 2^32 - 8: the greatest multiple of 8 that has 32 bits. */
#define NEARLY_ALL 0xFFFFFFF8u

enum { ROOM = 1000 };

static const uint32_t document_ids[] = {3, 7, 9}, document_lengths[] = {256, 320, 40};

static bool writes(nahui_written answer, uint32_t length)
{
    return answer.refusal == 0 && answer.entry == 0 && answer.length == length;
}

static bool refuses(nahui_written answer, uint32_t number, uint32_t entry)
{
    return answer.refusal == number && answer.entry == entry && answer.length == 0;
}

/* Document 01's log, written from its contents to a room of bytes. */
static nahui_written write_document_log(uint8_t *out, size_t out_length)
{
    const uint8_t *blocks = bytes(document_log(), DOCUMENT_DIRECTORY);
    return nahui_log_write(blocks, DOCUMENT_DIRECTORY, numbers(document_ids, 3), 3, numbers(document_lengths, 3), 3,
                           out, out_length);
}

/* The refusal of these contents, and a room in which nothing was written. */
static void expect_refusal(size_t block_bytes, const uint32_t *ids, size_t ids_length, const uint32_t *lengths,
                           size_t lengths_length, uint32_t number, uint32_t entry)
{
    uint8_t *out = byte_room(ROOM);
    nahui_written answer = nahui_log_write(vast(block_bytes + 1), block_bytes, numbers(ids, ids_length), ids_length,
                                           numbers(lengths, lengths_length), lengths_length, out, ROOM);
    EXPECT(refuses(answer, number, entry));
    EXPECT(bytes_hold_just(out, ROOM, NULL, 0));
    give_arrays_back();
}

static void the_document_log(void)
{
    for (size_t beyond = 0; beyond < 3; beyond++) {
        size_t length = DOCUMENT_LOG_LENGTH + 16 * beyond;
        uint8_t *out = byte_room(length);
        EXPECT(writes(write_document_log(out, length), DOCUMENT_LOG_LENGTH));
        EXPECT(bytes_hold_just(out, length, document_log(), DOCUMENT_LOG_LENGTH));
        give_arrays_back();
    }
}

static void a_written_log_is_read_again(void)
{
    uint8_t *log = byte_room(DOCUMENT_LOG_LENGTH);
    nahui_written answer = write_document_log(log, DOCUMENT_LOG_LENGTH);
    EXPECT(nahui_log_test(log, answer.length).count == 3);
    for (size_t k = 0, start = 0; k < 3; start += document_lengths[k++]) {
        nahui_found found = nahui_log_find(log, answer.length, document_ids[k]);
        EXPECT(found.refusal == 0 && found.start == start && found.length == document_lengths[k]);
        EXPECT(memcmp(log + found.start, document_log() + start, found.length) == 0);
    }
}

static void a_log_without_a_draw(void)
{
    const uint8_t expected[] = {5, 0, 0, 0, 0, 0, 0, 0, 0, 0, 0, 0, 0, 0, 0, 0, 1, 0, 0, 0, 'D', 'R', 'A', 'W'};
    const uint32_t id = 5, length = 0;
    uint8_t *out = byte_room(sizeof expected);
    EXPECT(writes(nahui_log_write(NULL, 0, &id, 1, &length, 1, out, sizeof expected), sizeof expected));
    EXPECT(bytes_hold_just(out, sizeof expected, expected, sizeof expected));
}

/* Writes a log with ids from 0 on, and zeros for draws, to a room that it just fills; and reads it again. */
static void expect_log(size_t count, uint32_t first_length, uint32_t other_length)
{
    uint32_t ids[64] = {0}, lengths[64] = {first_length};
    size_t sum = first_length;
    for (uint32_t k = 1; k < count; k++) {
        ids[k] = k;
        lengths[k] = other_length;
        sum += other_length;
    }
    size_t length = sum + 12 * count + 12;
    uint8_t *log = byte_room(length);
    nahui_written answer = nahui_log_write(bytes(vast(sum), sum), sum, numbers(ids, count), count,
                                           numbers(lengths, count), count, log, length);
    EXPECT(writes(answer, (uint32_t)length));
    EXPECT(memcmp(log, vast(sum), sum) == 0);
    EXPECT(nahui_log_test(log, length).count == count);
    EXPECT(nahui_log_find(log, length, (uint32_t)count - 1).start == sum - lengths[count - 1]);
    give_arrays_back();
}

static void the_greatest_logs(void)
{
    expect_log(1, 65512, 0); /* 65,536 bytes */
    expect_log(64, 1248, 1008); /* 65,532 bytes: 8 more are too many */
    expect_log(63, 64768, 0); /* 65,536 bytes */
}

static void nothing_at_all(void)
{
    const uint32_t number = 0;
    EXPECT(refuses(nahui_log_write(NULL, 0, NULL, 0, NULL, 0, NULL, 0), 13, 0));
    EXPECT(refuses(nahui_log_write(NULL, 0, &number, 1, NULL, 0, NULL, 0), 31, 0));
    EXPECT(refuses(nahui_log_write(NULL, 0, NULL, 0, &number, 1, NULL, 0), 31, 0));
    EXPECT(refuses(nahui_log_write(NULL, 0, &number, 1, &number, 1, NULL, 0), 23, 0));
}

static void short_rooms(void)
{
    for (size_t length = 0; length < DOCUMENT_LOG_LENGTH; length++) {
        uint8_t *out = byte_room(length);
        EXPECT(refuses(write_document_log(out, length), 23, 0));
        EXPECT(bytes_hold_just(out, length, NULL, 0));
        give_arrays_back();
    }
}

static void each_refusal(void)
{
    uint32_t ids[65], lengths[65] = {0};
    for (uint32_t k = 0; k < 65; k++)
        ids[k] = k;
    expect_refusal(616, document_ids, 3, document_lengths, 2, 31, 0);
    expect_refusal(0, ids, 0, lengths, 0, 13, 0);
    expect_refusal(0, ids, 65, lengths, 65, 13, 0);
    expect_refusal(616, (uint32_t[]){3, 9, 9}, 3, document_lengths, 3, 15, 2);
    expect_refusal(616, document_ids, 3, (uint32_t[]){256, 324, 36}, 3, 17, 1);
    expect_refusal(615, document_ids, 3, document_lengths, 3, 22, 0);
    expect_refusal(65520, ids, 1, (uint32_t[]){65520}, 1, 11, 0);
}

static void the_order_of_refusals(void)
{
    expect_refusal(0, document_ids, 1, document_lengths, 0, 31, 0);
    expect_refusal(8, (uint32_t[]){5, 5}, 2, (uint32_t[]){9, 9}, 2, 17, 0);
    expect_refusal(8, (uint32_t[]){5, 5}, 2, (uint32_t[]){8, 9}, 2, 15, 1);
    expect_refusal(70000, (uint32_t[]){5, 6}, 2, (uint32_t[]){8, 9}, 2, 17, 1);
    expect_refusal(70000, (uint32_t[]){5, 6}, 2, (uint32_t[]){8, 8}, 2, 22, 0);
    expect_refusal(70000, (uint32_t[]){5, 6}, 2, (uint32_t[]){8, 69992}, 2, 11, 0);
    expect_refusal(1600, (uint32_t[]){5, 6}, 2, (uint32_t[]){800, 800}, 2, 23, 0);
}

static void sums_beyond_32_bits(void)
{
    expect_refusal(0, document_ids, 2, (uint32_t[]){NEARLY_ALL, 8}, 2, 22, 0);
    expect_refusal(8, document_ids, 2, (uint32_t[]){NEARLY_ALL, 16}, 2, 22, 0);
    expect_refusal(VAST + 8, document_ids, 1, (uint32_t[]){8}, 1, 22, 0);
    expect_refusal(VAST + 8, document_ids, 2, (uint32_t[]){NEARLY_ALL, 16}, 2, 11, 0);
    expect_refusal(VAST - 8, document_ids, 1, (uint32_t[]){NEARLY_ALL}, 1, 11, 0);
}

static void rooms_beyond_32_bits(void)
{
    uint8_t *out = vast(VAST + 8);
    EXPECT(writes(write_document_log(out, VAST + 8), DOCUMENT_LOG_LENGTH));
    EXPECT(memcmp(out, document_log(), DOCUMENT_LOG_LENGTH) == 0);
    for (size_t k = DOCUMENT_LOG_LENGTH; k < 2 * DOCUMENT_LOG_LENGTH; k++)
        EXPECT(out[k] == 0 && out[VAST + 7 + DOCUMENT_LOG_LENGTH - k] == 0);
}

static void numbers_of_ids_beyond_32_bits(void)
{
    const uint32_t *many = vast((VAST + 1) * sizeof(uint32_t));
    uint8_t *out = byte_room(ROOM);
    EXPECT(refuses(nahui_log_write(NULL, 0, many, VAST + 1, many, 1, out, ROOM), 31, 0));
    EXPECT(refuses(nahui_log_write(NULL, 0, many, 1, many, VAST + 1, out, ROOM), 31, 0));
    EXPECT(refuses(nahui_log_write(NULL, 0, many, VAST + 1, many, VAST + 1, out, ROOM), 13, 0));
    EXPECT(bytes_hold_just(out, ROOM, NULL, 0));
}

int main(void)
{
    run("document 01's log from its contents", the_document_log);
    run("a written log is read again", a_written_log_is_read_again);
    run("a log without a draw", a_log_without_a_draw);
    run("the greatest logs", the_greatest_logs);
    run("nothing at all is refused 13", nothing_at_all);
    run("every shorter room is refused 23", short_rooms);
    run("each refusal of the writer", each_refusal);
    run("the order of the writer's refusals", the_order_of_refusals);
    run("sums of lengths beyond 32 bits", sums_beyond_32_bits);
    run("a room beyond 32 bits", rooms_beyond_32_bits);
    run("numbers of ids beyond 32 bits", numbers_of_ids_beyond_32_bits);
    return status();
}
