/* What the tests of the library for C share: checks that are counted, bytes in blocks of exact size, and areas with guards. */
#ifndef KIT_H
#define KIT_H

#include "partyid.h"

/* ---- Checks */

/* The place of a case, shown when one of its checks fails: each case is a macro that notes where it stands. */
void at_place(const char *file, int line);
#define AT_THIS_LINE at_place(__FILE__, __LINE__)

void same_number(const char *what, uint64_t expected, uint64_t found);
void same_bytes(const char *what, const uint8_t *expected, const uint8_t *found, size_t len);
void same_answer(struct partyid_answer expected, struct partyid_answer found);
void same_done(struct partyid_done expected, struct partyid_done found);

/* Prints how many checks were made, and gives the exit status: 1 where one failed. */
int verdict_of_checks(void);

/* ---- The answers that are expected */

struct partyid_answer no_rule(void);
struct partyid_answer accepted(uint32_t rule, uint32_t severity);
struct partyid_answer unread(uint32_t rule, uint32_t severity);
struct partyid_answer refused(uint32_t rule, uint32_t severity, uint32_t reason);
struct partyid_done done(size_t count);
struct partyid_done not_done(uint32_t reason);

/* ---- Bytes */

struct bytes {
    const uint8_t *at;
    size_t len;
};

/* The bytes of a string literal, zeros within it included, and its own ending zero left out. */
#define TEXT(literal) text_of(literal, sizeof(literal) - 1)
struct bytes text_of(const char *literal, size_t len);

/* A byte so many times, and two texts as one. They stand until the program ends. */
struct bytes times(size_t count, char byte);
struct bytes joined(struct bytes first, struct bytes second);

/* Copied to a block of exactly its size, so that valgrind sees a read outside. An empty one has a null pointer where `null`. */
struct block {
    uint8_t *at;
    size_t len;
    struct bytes original;
};

struct block lend(struct bytes source, bool null);

/* Checks that the block still has what was lent, and frees it. */
void give_back(struct block lent);

/* How many ways there are to lend these bytes: an empty slice with a null pointer, and with another. */
int ways(struct bytes source);

/* ---- Areas */

enum { GUARD = 64, FILL = 0xA5 };

/* An area to write to: alone in a block of exactly its size, so that valgrind sees a write outside, or between guards. */
struct area {
    uint8_t *block;
    uint8_t *at;
    size_t len;
    size_t guard;
};

enum area_kind { ALONE, GUARDED, NULL_AREA, AREA_KINDS };

/* Whether there is such an area of so many bytes: only an empty one has a null pointer. */
bool has_kind(enum area_kind kind, size_t len);
struct area new_area(enum area_kind kind, size_t len);

/* Checks that the area begins with `written` and that every other byte of it and of its guards is as it was, and frees it. */
void end_area(struct area area, struct bytes written);

/* ---- The tests by subject */

void test_layout(void);
void test_field(void);
void test_rules(void);
void test_accounts(void);
void test_completing(void);
void test_listing(void);
void test_content(void);
void test_lines(void);
void test_tally(void);
void test_words(void);

#endif
