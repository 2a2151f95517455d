/*
 * The overlap check from C, with known answers.
 */
#include "nahuitepol.h"
#include "support.h"

static bool answers(nahui_checked answer, uint32_t pairs, uint32_t unprobed)
{
    return answer.refusal == 0 && answer.entry == 0 && answer.pairs == pairs && answer.unprobed == unprobed;
}

static bool refuses(nahui_checked answer, uint32_t number, uint32_t entry)
{
    return answer.refusal == number && answer.entry == entry && answer.pairs == 0 && answer.unprobed == 0;
}

static void check_of_the_document_log(void)
{
    const uint32_t pair[] = {3, 7, 64, 1};
    uint16_t *tables = tables_room(515);
    uint32_t *memory = room(258), *result = room(24);
    nahui_checked answer = nahui_check(document_log(), DOCUMENT_LOG_LENGTH, 32, tables, 515, memory, 258,
                                       result, 24);
    EXPECT(answers(answer, 1, 1));
    EXPECT(tables_zero_in_front(tables, 515, 512));
    EXPECT(zeros_in_front(memory, 258, 256));
    EXPECT(holds_just(result, 24, pair, 4));
}

/* Replicate 1 has the draw abcdefgh; 2 has it from its byte 3 on, and in the longer log as its third draw too. */
static void hits_inside_a_draw(void)
{
    static const char blocks[] = "abcdefgh012abcdefgh34567abcdefgh";
    const uint32_t ids[] = {1, 2}, found[] = {3, 16}, pair[] = {1, 2, 16, 1};
    for (uint32_t k = 0; k < 2; k++) {
        const uint32_t lengths[] = {8, 16 + 8 * k};
        size_t size = 8 + lengths[1], log_size = size + 36;
        const uint8_t *blocks_lent = bytes(blocks, size);
        uint8_t *log = byte_room(log_size);
        EXPECT(nahui_log_write(blocks_lent, size, ids, 2, lengths, 2, log, log_size).refusal == 0);
        uint16_t *tables = tables_room(16);
        uint32_t *memory = room(8), *result = room(8), *positions = room(2);
        EXPECT(answers(nahui_check(log, log_size, 1, tables, 16, memory, 8, result, 8), k, 0));
        EXPECT(holds_just(result, 8, pair, 4 * k));
        EXPECT(nahui_plain(blocks_lent, 8, blocks_lent + 8, lengths[1], tables, 16, positions, 2).refusal == 0);
        EXPECT(holds_just(positions, 2, found, 1 + k));
        give_arrays_back();
    }
}

static void one_replicate(void)
{
    const uint8_t least_log[24] = {5, 0, 0, 0, 0, 0, 0, 0, 0, 0, 0, 0, 0, 0, 0, 0, 1, 0, 0, 0, 'D', 'R', 'A', 'W'};
    uint16_t *tables = tables_room(16);
    uint32_t *memory = room(8);
    EXPECT(answers(nahui_check(bytes(least_log, 24), 24, 1, tables, 16, memory, 8, NULL, 0), 0, 1));
    EXPECT(tables_zero_in_front(tables, 16, 16) && zeros_in_front(memory, 8, 8));
}

static void refusals_in_their_order(void)
{
    uint16_t *tables = tables_room(512);
    uint32_t *memory = room(256), *result = room(24);
    const uint8_t *log = document_log();
    const size_t n = DOCUMENT_LOG_LENGTH;
    EXPECT(refuses(nahui_check(NULL, 0, 0, NULL, 0, NULL, 0, NULL, 0), 10, 0));
    EXPECT(refuses(nahui_check(log, n, 0, tables, 511, memory, 256, result, 23), 20, 0));
    EXPECT(refuses(nahui_check(log, n, 513, tables, 512, memory, 256, result, 24), 20, 0));
    EXPECT(refuses(nahui_check(log, n, 32, tables, 511, memory, 256, result, 23), 4, 0));
    EXPECT(refuses(nahui_check(log, n, 32, tables, 511, memory, 256, result, 24), 4, 0));
    EXPECT(refuses(nahui_check(log, n, 32, tables, 256, memory, 256, result, 24), 4, 0));
    EXPECT(refuses(nahui_check(log, n, 32, NULL, 0, memory, 256, result, 24), 4, 0));
    EXPECT(refuses(nahui_check(log, n, 32, tables, 512, memory, 255, result, 24), 4, 0));
    EXPECT(refuses(nahui_check(log, n, 32, tables, 512, memory, 255, result, 23), 4, 0));
    EXPECT(refuses(nahui_check(log, n, 32, tables, 511, memory, 255, result, 23), 4, 0));
    EXPECT(refuses(nahui_check(log, n, 32, tables, 512, memory, 256, result, 23), 5, 0));
    EXPECT(tables_untouched(tables, 512) && untouched(memory, 256) && untouched(result, 24));
}

static void a_refused_log(void)
{
    uint16_t *tables = tables_room(512);
    uint32_t *memory = room(256), *result = room(24);
    const uint8_t *odd_length = document_log_with(DOCUMENT_DIRECTORY + 24 + 8, 41);
    EXPECT(refuses(nahui_check(odd_length, DOCUMENT_LOG_LENGTH, 32, tables, 512, memory, 256, result, 24), 17, 2));
    EXPECT(tables_untouched(tables, 512) && untouched(memory, 256) && untouched(result, 24));
}

/* The blocks have 32, 40 and 5 draws. From p = 6 on only 3's probe occurs elsewhere, in 7. */
static void every_p(void)
{
    for (uint32_t p = 1; p <= 512; p++) {
        size_t need = 8 * (size_t)p;
        uint16_t *tables = tables_room(2 * need);
        uint32_t *memory = room(need), *result = room(24);
        nahui_checked answer = nahui_check(document_log(), DOCUMENT_LOG_LENGTH, p, tables, 2 * need, memory, need,
                                           result, 24);
        EXPECT(answer.refusal == 0);
        EXPECT(answer.unprobed == (uint32_t)(p > 32) + (uint32_t)(p > 40) + (uint32_t)(p > 5));
        EXPECT(p <= 5 || answer.pairs == (p <= 32 ? 1 : 0));
        EXPECT(tables_zero_in_front(tables, 2 * need, 2 * need));
        EXPECT(zeros_in_front(memory, need, need));
        give_arrays_back();
    }
}

int main(void)
{
    run("check of document 01's log", check_of_the_document_log);
    run("a hit inside a draw is no overlap", hits_inside_a_draw);
    run("one replicate needs no result room", one_replicate);
    run("refusals come in the order log, 20, 4, 5", refusals_in_their_order);
    run("a refused log carries its entry", a_refused_log);
    run("every p from 1 to 512", every_p);
    return status();
}
