/*
 * Both searches from C, with known answers.
 */
#include "nahuitepol.h"
#include "support.h"

#include <string.h>

static const uint16_t abab_pairs[] = {0, 2, 2, 2, 0, 4, 4, 1};

static bool answers(nahui_searched answer, uint64_t occurrences, uint64_t written, uint64_t windows,
                    uint64_t comparisons)
{
    return answer.refusal == 0 && answer.entry == 0 && answer.occurrences == occurrences
        && answer.written == written && answer.windows == windows && answer.comparisons == comparisons;
}

static bool came_close(nahui_searched answer, uint64_t closest, uint64_t closest_at)
{
    return answer.closest == closest && answer.closest_at == closest_at;
}

static bool refuses(nahui_searched answer, uint32_t number)
{
    return answer.refusal == number && answer.entry == 0 && answer.occurrences == 0 && answer.written == 0
        && answer.windows == 0 && answer.comparisons == 0 && came_close(answer, 0, 0);
}

static void plain_scan(void)
{
    const uint32_t found[] = {0, 2};
    uint16_t *tables = tables_room(8);
    uint32_t *positions = room(3);
    nahui_searched answer = nahui_plain(bytes("abab", 4), 4, bytes("ababab", 6), 6, tables, 8, positions, 3);
    EXPECT(answers(answer, 2, 2, 2, 8) && came_close(answer, 4, 0));
    EXPECT(tables_hold_just(tables, 8, abab_pairs, 8));
    EXPECT(holds_just(positions, 3, found, 2));
}

static void remembering_scan(void)
{
    const uint32_t found[] = {0, 2};
    uint16_t *tables = tables_room(8);
    uint32_t *memory = room(6), *positions = room(2);
    nahui_searched answer = nahui_remember(bytes("abab", 4), 4, bytes("ababab", 6), 6, tables, 8, memory, 6,
                                           positions, 2);
    EXPECT(answers(answer, 2, 2, 2, 6) && came_close(answer, 4, 0));
    EXPECT(tables_hold_just(tables, 8, abab_pairs, 8));
    EXPECT(zeros_in_front(memory, 6, 4));
    EXPECT(holds_just(positions, 2, found, 2));
}

static void longer_tables_rooms(void)
{
    const uint8_t *probe = bytes("abab", 4), *stream = bytes("ababab", 6);
    for (size_t length = 9; length <= 12; length++) {
        uint16_t *plainly = tables_room(length), *remembering = tables_room(length);
        uint32_t *memory = room(4);
        EXPECT(answers(nahui_plain(probe, 4, stream, 6, plainly, length, NULL, 0), 2, 0, 2, 8));
        EXPECT(answers(nahui_remember(probe, 4, stream, 6, remembering, length, memory, 4, NULL, 0), 2, 0, 2, 6));
        EXPECT(tables_hold_just(plainly, length, abab_pairs, 8));
        EXPECT(tables_hold_just(remembering, length, abab_pairs, 8));
        EXPECT(zeros_in_front(memory, 4, 4));
    }
}

static void short_position_rooms(void)
{
    const uint32_t found[] = {0};
    uint16_t *tables = tables_room(8);
    uint32_t *memory = room(4), *positions = room(1);
    const uint8_t *probe = bytes("abab", 4), *stream = bytes("ababab", 6);
    EXPECT(answers(nahui_plain(probe, 4, stream, 6, tables, 8, positions, 1), 2, 1, 2, 8));
    EXPECT(holds_just(positions, 1, found, 1));
    EXPECT(answers(nahui_plain(probe, 4, stream, 6, tables, 8, NULL, 0), 2, 0, 2, 8));
    EXPECT(answers(nahui_remember(probe, 4, stream, 6, tables, 8, memory, 4, NULL, 0), 2, 0, 2, 6));
}

static void empty_streams(void)
{
    uint16_t *plainly = tables_room(8), *remembering = tables_room(9);
    uint32_t *memory = room(4);
    const uint8_t *probe = bytes("abab", 4);
    nahui_searched plain = nahui_plain(probe, 4, NULL, 0, plainly, 8, NULL, 0);
    nahui_searched remember = nahui_remember(probe, 4, NULL, 0, remembering, 9, memory, 4, NULL, 0);
    EXPECT(answers(plain, 0, 0, 0, 0) && came_close(plain, 0, 0));
    EXPECT(answers(remember, 0, 0, 0, 0) && came_close(remember, 0, 0));
    EXPECT(tables_hold_just(plainly, 8, abab_pairs, 8));
    EXPECT(tables_hold_just(remembering, 9, abab_pairs, 8));
    EXPECT(zeros_in_front(memory, 4, 4));
}

static void empty_probes(void)
{
    EXPECT(refuses(nahui_plain(NULL, 0, NULL, 0, NULL, 0, NULL, 0), 1));
    EXPECT(refuses(nahui_remember(NULL, 0, NULL, 0, NULL, 0, NULL, 0, NULL, 0), 1));
}

static void short_work_rooms(void)
{
    uint16_t *tables = tables_room(8);
    uint32_t *memory = room(4), *positions = room(2);
    const uint8_t *probe = bytes("abab", 4), *stream = bytes("ababab", 6);
    for (size_t n = 0; n <= 6; n += 3) {
        for (size_t length = 0; length < 8; length++) {
            EXPECT(refuses(nahui_plain(probe, 4, stream, n, tables, length, positions, 2), 4));
            EXPECT(refuses(nahui_remember(probe, 4, stream, n, tables, length, memory, 4, positions, 2), 4));
            EXPECT(refuses(nahui_remember(probe, 4, stream, n, tables, length, memory, 3, positions, 2), 4));
        }
        EXPECT(refuses(nahui_plain(probe, 4, stream, n, NULL, 0, positions, 2), 4));
        EXPECT(refuses(nahui_remember(probe, 4, stream, n, tables, 8, memory, 3, positions, 2), 4));
        EXPECT(refuses(nahui_remember(probe, 4, stream, n, tables, 8, NULL, 0, positions, 2), 4));
    }
    EXPECT(tables_untouched(tables, 8) && untouched(memory, 4) && untouched(positions, 2));
}

static void both_come_close(const char *probe, const char *stream, uint64_t closest, uint64_t closest_at)
{
    size_t m = strlen(probe), n = strlen(stream);
    const uint8_t *x = bytes(probe, m), *y = bytes(stream, n);
    uint16_t *tables = tables_room(2 * m);
    uint32_t *memory = room(m);
    EXPECT(came_close(nahui_plain(x, m, y, n, tables, 2 * m, NULL, 0), closest, closest_at));
    EXPECT(came_close(nahui_remember(x, m, y, n, tables, 2 * m, memory, m, NULL, 0), closest, closest_at));
    give_arrays_back();
}

static void probes_that_do_not_occur(void)
{
    both_come_close("abc", "ab", 0, 0);
    both_come_close("abc", "bc", 0, 0);
    both_come_close("abc", "xxxxxxx", 0, 0);
    both_come_close("abc", "xbc", 2, 0);
    both_come_close("abc", "abbbc", 2, 2);
    both_come_close("random", "a wisdom, a freedom", 3, 2); /* and once more at 13 */
    both_come_close("aaa", "abaa", 1, 0); /* 2 at offset 1, which is no window */
    both_come_close("ba", "acaa", 1, 2); /* 1 at offset 1, which is no window */
}

static void probes_that_occur(void)
{
    both_come_close("abc", "abcabc", 3, 0);
    both_come_close("abc", "xxxabc", 3, 3);
    both_come_close("aaa", "baaaa", 3, 1);
}

/* By the lengths that the memory takes the remembering scan would come as close as 2 at 0, 4 at 4 and 3 at 6. */
static void stops_without_a_comparison(void)
{
    both_come_close("baaa", "acaaaa", 3, 2);
    both_come_close("babaaa", "aaabaabaaa", 5, 4);
    both_come_close("baaa", "acaaaacaaa", 3, 2);
}

/* Writes every position of the probe, found by a look at each, and answers their number. */
static size_t look_everywhere(const uint8_t *probe, size_t m, const uint8_t *stream, size_t n, uint32_t *found)
{
    size_t count = 0;
    for (size_t j = 0; j + m <= n; j++)
        if (memcmp(stream + j, probe, m) == 0)
            found[count++] = (uint32_t)j;
    return count;
}

/* With a hit a search comes as close as m, at the first one; without, less close. */
static bool as_close_as_found(nahui_searched answer, size_t m, const uint32_t *found, size_t count)
{
    return count > 0 ? came_close(answer, m, found[0]) : answer.closest < m;
}

static void search_both_ways(const uint8_t *probe, size_t m, const uint8_t *stream, size_t n)
{
    uint32_t found[64];
    size_t count = look_everywhere(probe, m, stream, n, found);
    const uint8_t *x = bytes(probe, m), *y = bytes(stream, n);
    uint16_t *pairs = tables_room(2 * m), *plain_tables = tables_room(2 * m), *other_tables = tables_room(2 * m);
    uint32_t *memory = room(m), *plainly = room(count), *remembering = room(count);
    nahui_searched plain = nahui_plain(x, m, y, n, plain_tables, 2 * m, plainly, count);
    nahui_searched remember = nahui_remember(x, m, y, n, other_tables, 2 * m, memory, m, remembering, count);
    EXPECT(plain.occurrences == count && remember.occurrences == count);
    EXPECT(as_close_as_found(plain, m, found, count));
    EXPECT(came_close(remember, plain.closest, plain.closest_at));
    EXPECT(holds_just(plainly, count, found, count));
    EXPECT(holds_just(remembering, count, found, count));
    EXPECT(nahui_tables(x, m, pairs, 2 * m) == 0);
    EXPECT(tables_hold_just(plain_tables, 2 * m, pairs, 2 * m));
    EXPECT(tables_hold_just(other_tables, 2 * m, pairs, 2 * m));
    EXPECT(zeros_in_front(memory, m, m));
    give_arrays_back();
}

/* Stretches of a word with many repetitions, searched for one another. */
static void stretches_of_every_length(void)
{
    const char *word = "abaababaabaababaababaabaababaabaababaababaabaababaabab";
    const uint8_t *letters = (const uint8_t *)word;
    for (size_t m = 1; m <= 20; m++)
        for (size_t n = 0; n <= strlen(word); n++)
            for (size_t start = 0; start < 3; start++)
                search_both_ways(letters + start, m, letters, n);
}

int main(void)
{
    run("plain scan of abab in ababab", plain_scan);
    run("remembering scan of abab in ababab", remembering_scan);
    run("longer tables rooms keep what is behind the pairs", longer_tables_rooms);
    run("short position rooms keep the total true", short_position_rooms);
    run("empty streams leave tables and six zeros", empty_streams);
    run("empty probes are refused 1", empty_probes);
    run("short work rooms are refused 4", short_work_rooms);
    run("how close the scans come to probes that do not occur", probes_that_do_not_occur);
    run("how close the scans come to probes that occur", probes_that_occur);
    run("the closest window stops without a comparison", stops_without_a_comparison);
    run("stretches of every length up to 20", stretches_of_every_length);
    return status();
}
