#include "kit.h"

#include <inttypes.h>
#include <stdio.h>
#include <stdlib.h>
#include <string.h>

/* ---- Checks */

static const char *place_file = "";
static int place_line = 0;
static unsigned long checks = 0;
static unsigned long failures = 0;

void at_place(const char *file, int line)
{
    place_file = file;
    place_line = line;
}

static void count_check(bool holds)
{
    checks += 1;
    if (!holds) {
        failures += 1;
        fprintf(stderr, "%s:%d: ", place_file, place_line);
    }
}

void same_number(const char *what, uint64_t expected, uint64_t found)
{
    count_check(expected == found);
    if (expected != found) {
        fprintf(stderr, "%s: expected %" PRIu64 ", found %" PRIu64 "\n", what, expected, found);
    }
}

static void show_bytes(const uint8_t *at, size_t len)
{
    for (size_t i = 0; i < len && i < 48; i += 1) {
        bool plain = at[i] >= ' ' && at[i] <= '~' && at[i] != '\\';
        fprintf(stderr, plain ? "%c" : "\\%02x", at[i]);
    }
    fprintf(stderr, len > 48 ? " .." : "");
}

static size_t same_at_start(const uint8_t *expected, const uint8_t *found, size_t len)
{
    size_t same = 0;
    while (same < len && expected[same] == found[same]) {
        same += 1;
    }
    return same;
}

void same_bytes(const char *what, const uint8_t *expected, const uint8_t *found, size_t len)
{
    bool holds = memcmp(expected, found, len) == 0;
    count_check(holds);
    if (!holds) {
        size_t same = same_at_start(expected, found, len);
        fprintf(stderr, "%s: from byte %zu of %zu on expected ", what, same, len);
        show_bytes(expected + same, len - same);
        fprintf(stderr, ", found ");
        show_bytes(found + same, len - same);
        fprintf(stderr, "\n");
    }
}

void same_answer(struct partyid_answer expected, struct partyid_answer found)
{
    bool same = expected.verdict == found.verdict && expected.rule == found.rule && expected.severity == found.severity &&
                expected.reason == found.reason;
    count_check(same);
    if (!same) {
        fprintf(stderr, "answer: expected %u %u %u %u, found %u %u %u %u\n", expected.verdict, expected.rule, expected.severity,
                expected.reason, found.verdict, found.rule, found.severity, found.reason);
    }
}

void same_done(struct partyid_done expected, struct partyid_done found)
{
    same_number("reason", expected.reason, found.reason);
    same_number("count", expected.count, found.count);
}

int verdict_of_checks(void)
{
    if (failures > 0) {
        fprintf(stderr, "%lu of %lu checks failed\n", failures, checks);
        return 1;
    }
    printf("%lu checks\n", checks);
    return 0;
}

/* ---- The answers that are expected */

static struct partyid_answer answer(uint32_t verdict, uint32_t rule, uint32_t severity, uint32_t reason)
{
    struct partyid_answer a = {verdict, rule, severity, reason};
    return a;
}

struct partyid_answer no_rule(void)
{
    return answer(PARTYID_VERDICT_NO_RULE, 0, PARTYID_SEVERITY_NO_SEVERITY, PARTYID_REASON_NO_REASON);
}

struct partyid_answer accepted(uint32_t rule, uint32_t severity)
{
    return answer(PARTYID_VERDICT_ACCEPTED, rule, severity, PARTYID_REASON_NO_REASON);
}

struct partyid_answer unread(uint32_t rule, uint32_t severity)
{
    return answer(PARTYID_VERDICT_UNREAD, rule, severity, PARTYID_REASON_NO_REASON);
}

struct partyid_answer refused(uint32_t rule, uint32_t severity, uint32_t reason)
{
    return answer(PARTYID_VERDICT_REFUSED, rule, severity, reason);
}

struct partyid_done done(size_t count)
{
    struct partyid_done d = {PARTYID_REASON_NO_REASON, count};
    return d;
}

struct partyid_done not_done(uint32_t reason)
{
    struct partyid_done d = {reason, 0};
    return d;
}

/* ---- Bytes */

struct bytes text_of(const char *literal, size_t len)
{
    struct bytes text = {(const uint8_t *)literal, len};
    return text;
}

static void *fresh(size_t len)
{
    void *block = malloc(len);
    if (block == NULL) {
        fprintf(stderr, "no memory for %zu bytes\n", len);
        exit(2);
    }
    return block;
}

/* Room for texts that are put together, which is never given back. */
static uint8_t *room_for(size_t len)
{
    static uint8_t store[1 << 22];
    static size_t used = 0;
    if (len > sizeof store - used) {
        fprintf(stderr, "no room for %zu bytes of text\n", len);
        exit(2);
    }
    uint8_t *room = store + used;
    used += len;
    return room;
}

struct bytes times(size_t count, char byte)
{
    uint8_t *room = room_for(count);
    memset(room, byte, count);
    struct bytes text = {room, count};
    return text;
}

struct bytes joined(struct bytes first, struct bytes second)
{
    uint8_t *room = room_for(first.len + second.len);
    memcpy(room, first.at, first.len);
    memcpy(room + first.len, second.at, second.len);
    struct bytes text = {room, first.len + second.len};
    return text;
}

struct block lend(struct bytes source, bool null)
{
    struct block lent = {NULL, source.len, source};
    if (!null) {
        lent.at = (uint8_t *)fresh(source.len);
        memcpy(lent.at, source.at, source.len);
    }
    return lent;
}

void give_back(struct block lent)
{
    if (lent.len > 0) {
        same_bytes("bytes that may only be read", lent.original.at, lent.at, lent.len);
    }
    free(lent.at);
}

int ways(struct bytes source)
{
    return source.len == 0 ? 2 : 1;
}

/* ---- Areas */

bool has_kind(enum area_kind kind, size_t len)
{
    return kind != NULL_AREA || len == 0;
}

struct area new_area(enum area_kind kind, size_t len)
{
    struct area area = {NULL, NULL, len, kind == GUARDED ? (size_t)GUARD : 0};
    if (kind != NULL_AREA) {
        size_t all = area.len + 2 * area.guard;
        area.block = (uint8_t *)fresh(all);
        memset(area.block, FILL, all);
        area.at = area.block + area.guard;
    }
    return area;
}

static void all_filled(const char *what, const uint8_t *at, size_t len)
{
    size_t filled = 0;
    while (filled < len && at[filled] == FILL) {
        filled += 1;
    }
    same_number(what, len, filled);
}

void end_area(struct area area, struct bytes written)
{
    if (area.block != NULL) {
        all_filled("bytes before the area that stay", area.block, area.guard);
        same_bytes("written", written.at, area.at, written.len);
        all_filled("bytes of the area that stay", area.at + written.len, area.len - written.len);
        all_filled("bytes behind the area that stay", area.at + area.len, area.guard);
    }
    free(area.block);
}
