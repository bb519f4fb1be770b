#include "batch.h"

#include <string.h>

/* ---- Tallies */

struct tally zeros(void)
{
    struct tally tally;
    memset(&tally, 0, sizeof tally);
    return tally;
}

struct tally with(struct tally tally, size_t at, uint32_t count)
{
    tally.counts[at] = count;
    return tally;
}

struct area lend_tally(enum area_kind kind, const struct tally *before)
{
    if (before == NULL) {
        return new_area(NULL_AREA, 0);
    }
    struct area lent = new_area(kind == GUARDED ? GUARDED : ALONE, sizeof *before);
    memcpy(lent.at, before, sizeof *before);
    return lent;
}

uint32_t *counts_of(struct area lent)
{
    return (uint32_t *)(void *)lent.at;
}

void end_tally(struct area lent, const struct tally *after)
{
    struct bytes expected = {(const uint8_t *)after->counts, sizeof after->counts};
    end_area(lent, expected);
}

/* ---- Batches */

static size_t line_end(struct bytes text, size_t from)
{
    while (from < text.len && text.at[from] != '\n') {
        from += 1;
    }
    return from;
}

static struct partyid_answer one_line(const uint8_t *line, size_t len, uint32_t *counts)
{
    return counts == NULL ? partyid_answer_line(line, len) : partyid_tally_line(line, len, counts);
}

/* What is expected of a text and room for so many numbers: its lines answered one by one. */
static struct batch one_by_one(struct bytes text, const struct tally *before, size_t room)
{
    struct batch batch;
    memset(&batch, 0, sizeof batch);
    batch.after = before == NULL ? zeros() : *before;
    while (batch.says.used < text.len && (batch.says.count + 1) * PARTYID_ANSWER_NUMBERS <= room) {
        size_t end = line_end(text, batch.says.used);
        uint32_t *counts = before == NULL ? NULL : batch.after.counts;
        struct partyid_answer answer = one_line(text.at + batch.says.used, end - batch.says.used, counts);
        memcpy(batch.numbers + batch.says.count * PARTYID_ANSWER_NUMBERS, &answer, sizeof answer);
        batch.says.count += 1;
        batch.says.used = end < text.len ? end + 1 : end;
    }
    return batch;
}

static struct partyid_batch by_numbers(struct block text, uint32_t *counts, struct area area)
{
    uint32_t *out = (uint32_t *)(void *)area.at;
    size_t room = area.len / sizeof *out;
    return counts == NULL ? partyid_answer_lines(text.at, text.len, out, room) : partyid_tally_lines(text.at, text.len, counts, out, room);
}

static struct partyid_batch by_answers(struct block text, uint32_t *counts, struct area area)
{
    struct partyid_answer *out = (struct partyid_answer *)(void *)area.at;
    size_t room = area.len / sizeof *out;
    return counts == NULL ? partyid_check_lines(text.at, text.len, out, room) : partyid_tally_check_lines(text.at, text.len, counts, out, room);
}

/* By numbers, and by answers where the room is one of whole answers. */
static void lines_in(enum area_kind kind, struct bytes text, const struct tally *before, size_t room, struct batch expected)
{
    struct bytes written = {(const uint8_t *)expected.numbers, expected.says.count * PARTYID_ANSWER_NUMBERS * sizeof(uint32_t)};
    int kinds = room % PARTYID_ANSWER_NUMBERS == 0 ? 2 : 1;
    for (int way = 0; way < ways(text) * kinds; way += 1) {
        struct block lent = lend(text, way / kinds == 1);
        struct area counts = lend_tally(kind, before);
        struct area area = new_area(kind, room * sizeof(uint32_t));
        struct partyid_batch found = (way % kinds == 1 ? by_answers : by_numbers)(lent, counts_of(counts), area);
        same_number("lines", expected.says.count, found.count);
        same_number("bytes used", expected.says.used, found.used);
        end_area(area, written);
        end_tally(counts, &expected.after);
        give_back(lent);
    }
}

void lines(struct bytes text, const struct tally *before, size_t room, struct batch expected)
{
    for (int kind = 0; kind < AREA_KINDS; kind += 1) {
        if (has_kind((enum area_kind)kind, room)) {
            lines_in((enum area_kind)kind, text, before, room, expected);
        }
    }
}

void lines_by_room(struct bytes text, const struct tally *before)
{
    for (size_t room = 0; room <= MOST_NUMBERS; room += 1) {
        lines(text, before, room, one_by_one(text, before, room));
    }
}
