/*
 * The log test and the lookup from C, with known answers.
 */
#include "nahuitepol.h"
#include "support.h"

#include <string.h>

static bool test_refuses(nahui_tested answer, uint32_t number, uint32_t entry)
{
    return answer.refusal == number && answer.entry == entry && answer.count == 0;
}

static bool finds(nahui_found answer, uint32_t start, uint32_t length)
{
    return answer.refusal == 0 && answer.entry == 0 && answer.start == start && answer.length == length;
}

static bool find_refuses(nahui_found answer, uint32_t number, uint32_t entry)
{
    return answer.refusal == number && answer.entry == entry && answer.start == 0 && answer.length == 0;
}

static void test_of_the_document_log(void)
{
    nahui_tested answer = nahui_log_test(document_log(), DOCUMENT_LOG_LENGTH);
    EXPECT(answer.refusal == 0 && answer.entry == 0 && answer.count == 3);
}

static void lookups_in_the_document_log(void)
{
    const uint8_t *log = document_log();
    EXPECT(finds(nahui_log_find(log, DOCUMENT_LOG_LENGTH, 3), 0, 256));
    EXPECT(finds(nahui_log_find(log, DOCUMENT_LOG_LENGTH, 7), 256, 320));
    EXPECT(finds(nahui_log_find(log, DOCUMENT_LOG_LENGTH, 9), 576, 40));
    EXPECT(find_refuses(nahui_log_find(log, DOCUMENT_LOG_LENGTH, 4), 18, 0));
    EXPECT(find_refuses(nahui_log_find(log, DOCUMENT_LOG_LENGTH, UINT32_MAX), 18, 0));
}

static void no_log_at_all(void)
{
    EXPECT(test_refuses(nahui_log_test(NULL, 0), 10, 0));
    EXPECT(find_refuses(nahui_log_find(NULL, 0, 3), 10, 0));
}

static void a_wrong_mark(void)
{
    const uint8_t *log = document_log_with(DOCUMENT_LOG_LENGTH - 1, 'w');
    EXPECT(test_refuses(nahui_log_test(log, DOCUMENT_LOG_LENGTH), 12, 0));
    EXPECT(find_refuses(nahui_log_find(log, DOCUMENT_LOG_LENGTH, 3), 12, 0));
}

static void refusals_with_an_entry(void)
{
    const uint8_t *repeated_id = document_log_with(DOCUMENT_DIRECTORY + 12, 3);
    const uint8_t *misplaced = document_log_with(DOCUMENT_DIRECTORY + 12 + 4, 8);
    const uint8_t *odd_length = document_log_with(DOCUMENT_DIRECTORY + 24 + 8, 41);
    const uint8_t *wrong_end = document_log_with(DOCUMENT_DIRECTORY + 24 + 8, 48);
    EXPECT(test_refuses(nahui_log_test(repeated_id, DOCUMENT_LOG_LENGTH), 15, 1));
    EXPECT(test_refuses(nahui_log_test(misplaced, DOCUMENT_LOG_LENGTH), 16, 1));
    EXPECT(test_refuses(nahui_log_test(odd_length, DOCUMENT_LOG_LENGTH), 17, 2));
    EXPECT(test_refuses(nahui_log_test(wrong_end, DOCUMENT_LOG_LENGTH), 16, 3));
    EXPECT(find_refuses(nahui_log_find(wrong_end, DOCUMENT_LOG_LENGTH, 3), 16, 3));
}

static void cut_logs(void)
{
    const size_t n = DOCUMENT_LOG_LENGTH;
    uint8_t whole[DOCUMENT_LOG_LENGTH];
    memcpy(whole, document_log(), n);
    for (size_t length = 0; length < n; length++) {
        const uint8_t *front = bytes(whole, length), *tail = bytes(whole + n - length, length);
        EXPECT(test_refuses(nahui_log_test(front, length), length < 12 ? 10 : 12, 0));
        EXPECT(test_refuses(nahui_log_test(tail, length), length < 12 ? 10 : 14, 0));
        EXPECT(find_refuses(nahui_log_find(front, length, 3), length < 12 ? 10 : 12, 0));
        EXPECT(find_refuses(nahui_log_find(tail, length, 3), length < 12 ? 10 : 14, 0));
        give_arrays_back();
    }
}

int main(void)
{
    run("test of document 01's log", test_of_the_document_log);
    run("lookups in document 01's log", lookups_in_the_document_log);
    run("no log at all is refused 10", no_log_at_all);
    run("a wrong mark is refused 12", a_wrong_mark);
    run("15, 16 and 17 carry their entry", refusals_with_an_entry);
    run("every front and every tail of a log is refused", cut_logs);
    return status();
}
