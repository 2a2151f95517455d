/*
 * Support for the C tests: cases that print one line each, and arrays that show every access out of bounds.
 */
#ifndef SUPPORT_H
#define SUPPORT_H

#include <stdbool.h>
#include <stddef.h>
#include <stdint.h>

/* What a lent room holds before the call: no number that a call writes. */
#define UNTOUCHED 0xA5A5A5A5u

/* The same for a room of both tables: no table entry. */
#define UNTOUCHED_ENTRY 0xA5A5u

/* The same for a room of bytes; the tests write no such byte. */
#define UNTOUCHED_BYTE 0xA5u

/* Notes the first condition of a case that does not hold. */
#define EXPECT(condition) expect((condition), #condition)

void expect(bool holds, const char *condition);

/* Runs a case and prints `ok NAME` or `FAILED NAME: why`; then gives its arrays back. */
void run(const char *name, void (*test)(void));

/* The program's exit status: 0 only where no case failed. */
int status(void);

/*
 * Arrays of exactly the length said. They lie at the end of a page that no readable page follows; a build with
 * the address sanitizer takes them from the heap instead.
 */

/* A room of untouched numbers. */
uint32_t *room(size_t length);

/* A room of untouched 16-bit numbers, for both tables. */
uint16_t *tables_room(size_t length);

/* A room of untouched bytes. */
uint8_t *byte_room(size_t length);

/* A copy of these bytes, which may be read only. */
const uint8_t *bytes(const void *content, size_t length);

/* A copy of these numbers, which may be read only. */
const uint32_t *numbers(const uint32_t *content, size_t length);

/* This many bytes of zeros, even more than there is memory for: only what is touched takes any. */
void *vast(size_t size);

/* Gives all arrays of the case back, for a case that takes many in turn. */
void give_arrays_back(void);

/* True where the room begins with the expected numbers, and all others are untouched. */
bool holds_just(const uint32_t *room, size_t length, const uint32_t *front, size_t front_length);

/* The same for a room of both tables. */
bool tables_hold_just(const uint16_t *room, size_t length, const uint16_t *front, size_t front_length);

/* The same for a room of bytes. */
bool bytes_hold_just(const uint8_t *room, size_t length, const uint8_t *front, size_t front_length);

/* True where nothing was written. */
bool untouched(const uint32_t *room, size_t length);

/* The same for a room of both tables. */
bool tables_untouched(const uint16_t *room, size_t length);

/* True where the numbers from 0 to front_length - 1 are 0, and all others are untouched. */
bool zeros_in_front(const uint32_t *room, size_t length, size_t front_length);

/* The same for a room of both tables. */
bool tables_zero_in_front(const uint16_t *room, size_t length, size_t front_length);

/* Document 01's log: replicate 3 has draws 0 to 31; 7 has 100 to 107, then 0 to 31; 9 has five draws of 0. */
#define DOCUMENT_LOG_LENGTH 664

/* Where that log's directory begins. */
#define DOCUMENT_DIRECTORY 616

const uint8_t *document_log(void);

/* That log with another byte at one place. */
const uint8_t *document_log_with(size_t place, uint8_t byte);

#endif
