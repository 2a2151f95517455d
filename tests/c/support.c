/*
 * Support for the C tests; see support.h.
 */
#define _DEFAULT_SOURCE /* for MAP_ANONYMOUS */

#include "support.h"

#include <stdio.h>
#include <stdlib.h>
#include <string.h>
#include <sys/mman.h>
#include <unistd.h>

/* Cases. */

static const char *why; /* the first condition that did not hold in the running case */
static bool any_failed;

void expect(bool holds, const char *condition)
{
    if (!holds && why == NULL)
        why = condition;
}

void run(const char *name, void (*test)(void))
{
    why = NULL;
    test();
    if (why == NULL)
        printf("ok %s\n", name);
    else
        printf("FAILED %s: not %s\n", name, why);
    fflush(stdout);
    any_failed = any_failed || why != NULL;
    give_arrays_back();
}

int status(void)
{
    return any_failed ? EXIT_FAILURE : EXIT_SUCCESS;
}

/* Arrays. */

#define MOST_ARRAYS 16

typedef struct {
    void *start;  /* of the pages or of the heap block */
    size_t pages; /* their length in bytes, with the closed page; 0 for a heap block */
    size_t array; /* where the array begins */
} lent;

static lent arrays[MOST_ARRAYS];
static size_t array_count;

static void give_up(const char *problem)
{
    printf("FAILED support: %s\n", problem);
    exit(EXIT_FAILURE);
}

static void *map(size_t size, int flags)
{
    void *start = mmap(NULL, size, PROT_READ | PROT_WRITE, MAP_PRIVATE | MAP_ANONYMOUS | flags, -1, 0);
    if (start == MAP_FAILED)
        give_up("no memory");
    return start;
}

static void give_back(lent one)
{
    if (one.pages > 0)
        munmap(one.start, one.pages);
    else
        free(one.start);
}

#ifdef __SANITIZE_ADDRESS__

static lent lend(size_t size)
{
    lent one = {malloc(size), 0, 0};
    if (one.start == NULL && size > 0)
        give_up("no memory");
    return one;
}

static void close_to_writing(lent one)
{
    (void)one; /* the heap has no such protection */
}

#else

static lent lend(size_t size)
{
    size_t page = (size_t)sysconf(_SC_PAGESIZE);
    size_t open = (size + page - 1) / page * page;
    void *start = map(open + page, 0);
    if (mprotect((char *)start + open, page, PROT_NONE) != 0)
        give_up("no protection");
    return (lent){start, open + page, open - size};
}

static void close_to_writing(lent one)
{
    size_t page = (size_t)sysconf(_SC_PAGESIZE);
    if (one.pages > page && mprotect(one.start, one.pages - page, PROT_READ) != 0)
        give_up("no protection");
}

#endif

static lent note(lent one)
{
    if (array_count == MOST_ARRAYS)
        give_up("too many arrays in one case");
    arrays[array_count++] = one;
    return one;
}

void give_arrays_back(void)
{
    while (array_count > 0)
        give_back(arrays[--array_count]);
}

uint32_t *room(size_t length)
{
    lent one = note(lend(length * sizeof(uint32_t)));
    uint32_t *numbers = (uint32_t *)(void *)((char *)one.start + one.array);
    for (size_t k = 0; k < length; k++)
        numbers[k] = UNTOUCHED;
    return numbers;
}

uint16_t *tables_room(size_t length)
{
    lent one = note(lend(length * sizeof(uint16_t)));
    uint16_t *entries = (uint16_t *)(void *)((char *)one.start + one.array);
    for (size_t k = 0; k < length; k++)
        entries[k] = UNTOUCHED_ENTRY;
    return entries;
}

uint8_t *byte_room(size_t length)
{
    lent one = note(lend(length));
    uint8_t *list = (uint8_t *)one.start + one.array;
    for (size_t k = 0; k < length; k++)
        list[k] = UNTOUCHED_BYTE;
    return list;
}

const uint8_t *bytes(const void *content, size_t length)
{
    lent one = note(lend(length));
    uint8_t *copy = (uint8_t *)one.start + one.array;
    if (length > 0)
        memcpy(copy, content, length);
    close_to_writing(one);
    return copy;
}

const uint32_t *numbers(const uint32_t *content, size_t length)
{
    return (const uint32_t *)(const void *)bytes(content, length * sizeof(uint32_t));
}

void *vast(size_t size)
{
    return note((lent){map(size, MAP_NORESERVE), size, 0}).start;
}

bool holds_just(const uint32_t *room, size_t length, const uint32_t *front, size_t front_length)
{
    for (size_t k = 0; k < length; k++)
        if (room[k] != (k < front_length ? front[k] : UNTOUCHED))
            return false;
    return front_length <= length;
}

bool tables_hold_just(const uint16_t *room, size_t length, const uint16_t *front, size_t front_length)
{
    for (size_t k = 0; k < length; k++)
        if (room[k] != (k < front_length ? front[k] : UNTOUCHED_ENTRY))
            return false;
    return front_length <= length;
}

bool bytes_hold_just(const uint8_t *room, size_t length, const uint8_t *front, size_t front_length)
{
    for (size_t k = 0; k < length; k++)
        if (room[k] != (k < front_length ? front[k] : UNTOUCHED_BYTE))
            return false;
    return front_length <= length;
}

bool untouched(const uint32_t *room, size_t length)
{
    return holds_just(room, length, NULL, 0);
}

bool tables_untouched(const uint16_t *room, size_t length)
{
    return tables_hold_just(room, length, NULL, 0);
}

bool zeros_in_front(const uint32_t *room, size_t length, size_t front_length)
{
    for (size_t k = 0; k < length; k++)
        if (room[k] != (k < front_length ? 0 : UNTOUCHED))
            return false;
    return front_length <= length;
}

bool tables_zero_in_front(const uint16_t *room, size_t length, size_t front_length)
{
    for (size_t k = 0; k < length; k++)
        if (room[k] != (k < front_length ? 0 : UNTOUCHED_ENTRY))
            return false;
    return front_length <= length;
}

/* Document 01's log. */

typedef struct {
    uint8_t bytes[DOCUMENT_LOG_LENGTH];
    size_t length;
} growing_log;

static void put(growing_log *log, uint64_t value, size_t size)
{
    for (size_t k = 0; k < size; k++)
        log->bytes[log->length++] = (uint8_t)(value >> (8 * k));
}

static void put_draws(growing_log *log, uint64_t first, size_t count)
{
    for (size_t k = 0; k < count; k++)
        put(log, first + k, 8);
}

static void put_numbers(growing_log *log, uint32_t first, uint32_t second, uint32_t third)
{
    put(log, first, 4);
    put(log, second, 4);
    put(log, third, 4);
}

static growing_log written_document_log(void)
{
    growing_log log = {{0}, 0};
    put_draws(&log, 0, 32);
    put_draws(&log, 100, 8);
    put_draws(&log, 0, 32);
    for (int k = 0; k < 5; k++)
        put_draws(&log, 0, 1);
    put_numbers(&log, 3, 0, 256);
    put_numbers(&log, 7, 256, 320);
    put_numbers(&log, 9, 576, 40);
    put_numbers(&log, DOCUMENT_DIRECTORY, 3, 0x57415244); /* the mark: 44 52 41 57, low byte first */
    return log;
}

const uint8_t *document_log(void)
{
    growing_log log = written_document_log();
    return bytes(log.bytes, log.length);
}

const uint8_t *document_log_with(size_t place, uint8_t byte)
{
    growing_log log = written_document_log();
    log.bytes[place] = byte;
    return bytes(log.bytes, log.length);
}
