/*
 * The header, included twice and compiled as C and as C++: the layout of its structs, the types of the calls that
 * take the 16-bit room, and a call by its name.
 */
#include "nahuitepol.h"
#include "nahuitepol.h"

#include <assert.h>
#include <stdio.h>

static_assert(sizeof(nahui_occurrences) == 257 * 4, "occurrences");
static_assert(offsetof(nahui_occurrences, table) == 4, "occurrences");
static_assert(sizeof(nahui_searched) == 56, "searched");
static_assert(offsetof(nahui_searched, occurrences) == 8, "searched");
static_assert(offsetof(nahui_searched, comparisons) == 32, "searched");
static_assert(offsetof(nahui_searched, closest) == 40, "searched");
static_assert(offsetof(nahui_searched, closest_at) == 48, "searched");
static_assert(sizeof(nahui_tested) == 12, "tested");
static_assert(sizeof(nahui_found) == 16, "found");
static_assert(sizeof(nahui_written) == 12, "written");
static_assert(offsetof(nahui_written, entry) == 4, "written");
static_assert(offsetof(nahui_written, length) == 8, "written");
static_assert(sizeof(nahui_checked) == 16, "checked");

static uint32_t (*const tables)(const uint8_t *, size_t, uint16_t *, size_t) = nahui_tables;
static nahui_searched (*const plain)(const uint8_t *, size_t, const uint8_t *, size_t, uint16_t *, size_t,
                                     uint32_t *, size_t) = nahui_plain;
static nahui_searched (*const remember)(const uint8_t *, size_t, const uint8_t *, size_t, uint16_t *, size_t,
                                        uint32_t *, size_t, uint32_t *, size_t) = nahui_remember;
static nahui_checked (*const check)(const uint8_t *, size_t, uint32_t, uint16_t *, size_t, uint32_t *, size_t,
                                    uint32_t *, size_t) = nahui_check;

int main(void)
{
#ifdef __cplusplus
    const char *name = "the header as C++";
#else
    const char *name = "the header as C";
#endif
    if (nahui_suffix(NULL, 0, NULL, 0) != 1) {
        printf("FAILED %s: an empty probe is not refused 1\n", name);
        return 1;
    }
    if (tables(NULL, 0, NULL, 0) != 1 || plain(NULL, 0, NULL, 0, NULL, 0, NULL, 0).refusal != 1
        || remember(NULL, 0, NULL, 0, NULL, 0, NULL, 0, NULL, 0).refusal != 1
        || check(NULL, 0, 0, NULL, 0, NULL, 0, NULL, 0).refusal != 10) {
        printf("FAILED %s: empty inputs are not refused 1, and an empty log not 10\n", name);
        return 1;
    }
    printf("ok %s\n", name);
    return 0;
}
