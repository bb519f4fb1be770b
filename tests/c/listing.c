/* Listing the corrections of a refused number. */
#include "work.h"

#include <string.h>


/* The entries stand at the start of an area that has the room or more; one byte less is ROOM, whatever would be found. */
static void listed(struct bytes scheme, struct bytes content, size_t digits, struct bytes entries)
{
    const size_t room = PARTYID_LIST_ROOM(digits);
    const size_t rooms[] = {room, room + 1, room + 500};
    for (size_t i = 0; i < sizeof rooms / sizeof rooms[0]; i += 1) {
        struct job job = {partyid_list, scheme, content, rooms[i], done(entries.len / digits), entries};
        run(job);
    }
    refusal(partyid_list, scheme, content, room - 1, ROOM);
    refusal(partyid_list, scheme, content, 0, ROOM);
}

/* The same reason with room and without, since ROOM comes last. */
static void not_listed(struct bytes scheme, struct bytes content, uint32_t reason)
{
    const size_t rooms[] = {0, 1, PARTYID_LIST_ROOM(PARTYID_LIST_DIGITS)};
    for (size_t i = 0; i < sizeof rooms / sizeof rooms[0]; i += 1) {
        refusal(partyid_list, scheme, content, rooms[i], reason);
    }
}

#define LISTED(scheme, content, digits, entries) (AT_THIS_LINE, listed(TEXT(scheme), content, digits, TEXT(entries)))
#define NOT_LISTED(scheme, content, reason) (AT_THIS_LINE, not_listed(scheme, content, reason))

static void lists(void)
{
    LISTED("0088", TEXT("71"), 2, "317917");
    LISTED("0088", TEXT("50"), 2, "0055");
    LISTED("0088", TEXT("1"), 1, "0");
    LISTED("0088", TEXT(" 71\xC2\xA0"), 2, "317917");
    LISTED("0088", joined(times(1022, ' '), TEXT("71")), 2, "317917");
    LISTED("0192", TEXT("000000000"), 9, "");
}

/* ---- A list made by trying: the number with every digit at every place, then with every two neighbours exchanged; what the check
   accepts is an entry. */

struct trial {
    struct bytes scheme;
    size_t digits;
    uint8_t number[PARTYID_LIST_DIGITS];
    uint8_t entries[PARTYID_LIST_ROOM(PARTYID_LIST_DIGITS)];
    size_t written;
};

static bool is_accepted(const struct trial *trial)
{
    struct partyid_answer answer = partyid_check(trial->scheme.at, trial->scheme.len, 34, trial->number, trial->digits);
    return answer.verdict == PARTYID_VERDICT_ACCEPTED;
}

static void try_number(struct trial *trial)
{
    if (is_accepted(trial) && trial->written + trial->digits <= sizeof trial->entries) {
        memcpy(trial->entries + trial->written, trial->number, trial->digits);
        trial->written += trial->digits;
    }
}

static void try_digits(struct trial *trial, size_t place)
{
    const uint8_t stood = trial->number[place];
    for (uint8_t digit = '0'; digit <= '9'; digit += 1) {
        trial->number[place] = digit;
        if (digit != stood) {
            try_number(trial);
        }
    }
    trial->number[place] = stood;
}

static void exchange(struct trial *trial, size_t place)
{
    const uint8_t left = trial->number[place];
    trial->number[place] = trial->number[place + 1];
    trial->number[place + 1] = left;
}

static void try_replacements(struct trial *trial)
{
    for (size_t place = 0; place < trial->digits; place += 1) {
        try_digits(trial, place);
    }
}

static void try_exchanges(struct trial *trial)
{
    for (size_t place = 0; place + 1 < trial->digits; place += 1) {
        exchange(trial, place);
        if (trial->number[place] != trial->number[place + 1]) {
            try_number(trial);
        }
        exchange(trial, place);
    }
}

/* The list of a refused number is what trying finds; an accepted number is GOOD. */
static void compare_list(struct trial *trial)
{
    struct bytes number = {trial->number, trial->digits};
    if (is_accepted(trial)) {
        not_listed(trial->scheme, number, GOOD);
        return;
    }
    try_replacements(trial);
    try_exchanges(trial);
    struct bytes entries = {trial->entries, trial->written};
    listed(trial->scheme, number, trial->digits, entries);
}

/* Digits in a fixed order that follows no rule (a linear congruence). */
static uint8_t next_digit(void)
{
    static uint32_t state = 1;
    state = state * 1664525 + 1013904223;
    return (uint8_t)('0' + (state >> 16) % 10);
}

static struct trial next_trial(struct bytes scheme, size_t digits)
{
    struct trial trial;
    memset(&trial, 0, sizeof trial);
    trial.scheme = scheme;
    trial.digits = digits;
    for (size_t place = 0; place < digits; place += 1) {
        trial.number[place] = next_digit();
    }
    return trial;
}

static void compare_lists(struct bytes scheme, size_t digits, int count)
{
    for (int i = 0; i < count; i += 1) {
        struct trial trial = next_trial(scheme, digits);
        compare_list(&trial);
    }
}

#define COMPARE_LISTS(scheme, digits, count) (AT_THIS_LINE, compare_lists(TEXT(scheme), digits, count))

static void lists_by_trying(void)
{
    for (size_t digits = 1; digits <= PARTYID_LIST_DIGITS; digits += 1) {
        COMPARE_LISTS("0088", digits, 5);
    }
    COMPARE_LISTS("0192", 9, 40);
    COMPARE_LISTS("0208", 10, 40);
    COMPARE_LISTS("0007", 10, 40);
    COMPARE_LISTS("0151", 11, 40);
}

/* ---- Refusals */

static void accepted_numbers(void)
{
    NOT_LISTED(TEXT("0088"), TEXT("17"), GOOD);
    NOT_LISTED(TEXT("0088"), times(20, '0'), GOOD);
    NOT_LISTED(TEXT("0192"), TEXT("123456785"), GOOD);
    NOT_LISTED(TEXT("0208"), TEXT("0000009797"), GOOD);
    NOT_LISTED(TEXT("0007"), TEXT(" 1234567897"), GOOD);
    NOT_LISTED(TEXT("0151"), TEXT("01000100000"), GOOD);
}

static void contents_of_another_form(struct bytes scheme, size_t least, size_t most)
{
    NOT_LISTED(scheme, TEXT(""), FORM);
    NOT_LISTED(scheme, TEXT(" \t"), FORM);
    NOT_LISTED(scheme, times(least - 1, '1'), FORM);
    NOT_LISTED(scheme, times(most + 1, '1'), FORM);
    NOT_LISTED(scheme, joined(times(most - 1, '1'), TEXT("x")), FORM);
    NOT_LISTED(scheme, times(1024, '1'), FORM);
    NOT_LISTED(scheme, times(1025, '1'), LONG);
    NOT_LISTED(scheme, times(10000, '\xFF'), LONG);
    NOT_LISTED(scheme, joined(times(most, '1'), TEXT("\xFF")), UTF8);
    NOT_LISTED(scheme, TEXT("\xED\xA0\x80"), UTF8);
}

static void other_schemes(void)
{
    NOT_LISTED(TEXT("0184"), TEXT("12345678"), SCHEME);
    NOT_LISTED(TEXT("0211"), TEXT("IT12345678904"), SCHEME);
    NOT_LISTED(TEXT(""), TEXT("71"), SCHEME);
    NOT_LISTED(TEXT(""), TEXT(""), SCHEME);
    NOT_LISTED(TEXT("008"), TEXT("71"), SCHEME);
    NOT_LISTED(TEXT("00880"), TEXT("71"), SCHEME);
    NOT_LISTED(TEXT("0060"), times(10000, '\xFF'), SCHEME);
    NOT_LISTED(times(10000, '0'), TEXT("71"), SCHEME);
    NOT_LISTED(joined(TEXT("0088"), times(9996, '0')), TEXT("71"), SCHEME);
}

void test_listing(void)
{
    lists();
    lists_by_trying();
    accepted_numbers();
    contents_of_another_form(TEXT("0088"), 1, PARTYID_LIST_DIGITS);
    contents_of_another_form(TEXT("0192"), 9, 9);
    contents_of_another_form(TEXT("0208"), 10, 10);
    contents_of_another_form(TEXT("0007"), 10, 10);
    contents_of_another_form(TEXT("0151"), 11, 11);
    other_schemes();
}
