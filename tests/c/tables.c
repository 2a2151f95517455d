/*
 * The table calls from C, with known answers.
 */
#include "nahuitepol.h"
#include "support.h"

static void suffix_of_abab(void)
{
    const uint32_t table[] = {0, 2, 0, 4};
    uint32_t *exact = room(4);
    uint32_t *longer = room(7);
    EXPECT(nahui_suffix(bytes("abab", 4), 4, exact, 4) == 0);
    EXPECT(holds_just(exact, 4, table, 4));
    EXPECT(nahui_suffix(bytes("abab", 4), 4, longer, 7) == 0);
    EXPECT(holds_just(longer, 7, table, 4));
}

static void shift_of_abab(void)
{
    const uint32_t table[] = {2, 2, 4, 1};
    uint32_t *exact = room(4);
    uint32_t *longer = room(7);
    EXPECT(nahui_shift(bytes("abab", 4), 4, exact, 4) == 0);
    EXPECT(holds_just(exact, 4, table, 4));
    EXPECT(nahui_shift(bytes("abab", 4), 4, longer, 7) == 0);
    EXPECT(holds_just(longer, 7, table, 4));
}

static const uint16_t abab_pairs[] = {0, 2, 2, 2, 0, 4, 4, 1};

static void pairs_of_abab(void)
{
    uint16_t *exact = tables_room(8);
    uint16_t *one_more = tables_room(9);
    uint16_t *longer = tables_room(15);
    EXPECT(nahui_tables(bytes("abab", 4), 4, exact, 8) == 0);
    EXPECT(tables_hold_just(exact, 8, abab_pairs, 8));
    EXPECT(nahui_tables(bytes("abab", 4), 4, one_more, 9) == 0);
    EXPECT(tables_hold_just(one_more, 9, abab_pairs, 8));
    EXPECT(nahui_tables(bytes("abab", 4), 4, longer, 15) == 0);
    EXPECT(tables_hold_just(longer, 15, abab_pairs, 8));
}

static void occurrence_of_abab(void)
{
    nahui_occurrences answer = nahui_occurrence(bytes("abab", 4), 4);
    EXPECT(answer.refusal == 0);
    for (int byte = 0; byte < 256; byte++)
        EXPECT(answer.table[byte] == (byte == 'a' ? 1 : byte == 'b' ? 2 : 4));
}

static void empty_probes(void)
{
    uint32_t *lent = room(2);
    EXPECT(nahui_suffix(NULL, 0, NULL, 0) == 1);
    EXPECT(nahui_shift(NULL, 0, NULL, 0) == 1);
    EXPECT(nahui_suffix(NULL, 0, lent, 2) == 1);
    EXPECT(nahui_shift(NULL, 0, lent, 2) == 1);
    EXPECT(untouched(lent, 2));
    uint16_t *pairs = tables_room(2);
    EXPECT(nahui_tables(NULL, 0, NULL, 0) == 1);
    EXPECT(nahui_tables(NULL, 0, pairs, 2) == 1);
    EXPECT(tables_untouched(pairs, 2));
    nahui_occurrences answer = nahui_occurrence(NULL, 0);
    EXPECT(answer.refusal == 1);
    for (int byte = 0; byte < 256; byte++)
        EXPECT(answer.table[byte] == 0);
}

static void probes_of_4097_bytes(void)
{
    static const uint8_t zeros[4097];
    const uint8_t *probe = bytes(zeros, 4097);
    uint32_t *lent = room(4097);
    EXPECT(nahui_suffix(probe, 4097, lent, 4097) == 2);
    EXPECT(nahui_shift(probe, 4097, lent, 4097) == 2);
    EXPECT(nahui_occurrence(probe, 4097).refusal == 2);
    EXPECT(untouched(lent, 4097));
    EXPECT(nahui_suffix(probe, 4096, lent, 4096) == 0);
    EXPECT(lent[0] == 1 && lent[4095] == 4096 && lent[4096] == UNTOUCHED);
}

static void pairs_of_4097_bytes(void)
{
    static const uint8_t zeros[4097];
    const uint8_t *probe = bytes(zeros, 4097);
    uint16_t *lent = tables_room(8194);
    EXPECT(nahui_tables(probe, 4097, lent, 8194) == 2);
    EXPECT(nahui_tables(probe, 4097, lent, 8193) == 2);
    EXPECT(nahui_tables(probe, 4097, NULL, 0) == 2);
    EXPECT(nahui_tables(probe, 4096, lent, 8191) == 4);
    EXPECT(tables_untouched(lent, 8194));
    EXPECT(nahui_tables(probe, 4096, lent, 8192) == 0);
    for (uint16_t i = 0; i < 4096; i++)
        EXPECT(lent[2 * i] == i + 1 && lent[2 * i + 1] == i + 1);
    EXPECT(lent[8192] == UNTOUCHED_ENTRY && lent[8193] == UNTOUCHED_ENTRY);
}

static void short_rooms(void)
{
    uint32_t *lent = room(3);
    EXPECT(nahui_suffix(bytes("abab", 4), 4, lent, 3) == 4);
    EXPECT(nahui_shift(bytes("abab", 4), 4, lent, 3) == 4);
    EXPECT(untouched(lent, 3));
    EXPECT(nahui_suffix(bytes("abab", 4), 4, NULL, 0) == 4);
    EXPECT(nahui_shift(bytes("abab", 4), 4, NULL, 0) == 4);
}

static void short_rooms_for_pairs(void)
{
    for (size_t length = 0; length < 8; length++) {
        uint16_t *lent = tables_room(length);
        EXPECT(nahui_tables(bytes("abab", 4), 4, lent, length) == 4);
        EXPECT(tables_untouched(lent, length));
        give_arrays_back();
    }
    EXPECT(nahui_tables(bytes("abab", 4), 4, NULL, 0) == 4);
}

/* Of equal bytes, both tables count from 1. */
static void equal_bytes_of_every_length(void)
{
    uint8_t equal[130] = {0};
    uint32_t counted[130];
    for (uint32_t m = 1; m <= 130; m++) {
        uint32_t *suffix = room(m), *shift = room(m);
        counted[m - 1] = m;
        EXPECT(nahui_suffix(bytes(equal, m), m, suffix, m) == 0);
        EXPECT(nahui_shift(bytes(equal, m), m, shift, m) == 0);
        EXPECT(holds_just(suffix, m, counted, m));
        EXPECT(holds_just(shift, m, counted, m));
        give_arrays_back();
    }
}

/* Every word of two letters: each entry found by comparing from both ends downward. */
static void suffix_of_every_short_word(void)
{
    for (size_t m = 1; m <= 10; m++)
        for (unsigned word = 0; word < 1u << m; word++) {
            uint8_t x[10];
            uint32_t table[10];
            for (size_t i = 0; i < m; i++)
                x[i] = word >> i & 1 ? 'a' : 'b';
            for (size_t i = 0; i < m; i++) {
                uint32_t k = 0;
                while (k <= i && x[i - k] == x[m - 1 - k])
                    k++;
                table[i] = k;
            }
            uint32_t *lent = room(m + 1);
            EXPECT(nahui_suffix(bytes(x, m), m, lent, m + 1) == 0);
            EXPECT(holds_just(lent, m + 1, table, m));
            give_arrays_back();
        }
}

/* Stretches of a word with many repetitions: the pairs, taken apart, are the two tables. */
static void pairs_beside_the_tables(void)
{
    const char *word = "abaababaabaababaababaabaababaabaababaababaabaababaabab";
    for (size_t m = 1; m <= 40; m++)
        for (size_t start = 0; start < 10; start++) {
            const uint8_t *probe = bytes(word + start, m);
            uint32_t *suffix = room(m), *shift = room(m);
            uint16_t *pairs = tables_room(2 * m + 1);
            EXPECT(nahui_suffix(probe, m, suffix, m) == 0 && nahui_shift(probe, m, shift, m) == 0);
            EXPECT(nahui_tables(probe, m, pairs, 2 * m + 1) == 0);
            for (size_t i = 0; i < m; i++)
                EXPECT(pairs[2 * i] == suffix[i] && pairs[2 * i + 1] == shift[i]);
            EXPECT(pairs[2 * m] == UNTOUCHED_ENTRY);
            give_arrays_back();
        }
}

int main(void)
{
    run("suffix table of abab", suffix_of_abab);
    run("shift table of abab", shift_of_abab);
    run("pairs of both tables of abab", pairs_of_abab);
    run("occurrence table of abab", occurrence_of_abab);
    run("empty probes are refused 1", empty_probes);
    run("probes of 4097 bytes are refused 2", probes_of_4097_bytes);
    run("pairs of 4097 bytes are refused 2, those of 4096 need 8192 numbers", pairs_of_4097_bytes);
    run("short rooms are refused 4", short_rooms);
    run("rooms of fewer than 2m numbers for the pairs are refused 4", short_rooms_for_pairs);
    run("equal bytes of every length up to 130", equal_bytes_of_every_length);
    run("suffix tables of all words of two letters up to 10 bytes", suffix_of_every_short_word);
    run("pairs taken apart are the two tables", pairs_beside_the_tables);
    return status();
}
