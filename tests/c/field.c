/* The check of a field: which terms and schemes have a rule. The rules themselves are in rules.c. */
#include "field.h"

void field(struct bytes scheme, uint32_t term, struct bytes content, struct partyid_answer expected)
{
    for (int way = 0; way < ways(scheme) * ways(content); way += 1) {
        struct block lent_scheme = lend(scheme, way % ways(scheme) == 1);
        struct block lent_content = lend(content, way / ways(scheme) == 1);
        same_answer(expected, partyid_check(lent_scheme.at, lent_scheme.len, term, lent_content.at, lent_content.len));
        give_back(lent_scheme);
        give_back(lent_content);
    }
}

static bool among(uint32_t term, const uint32_t *terms, size_t count)
{
    size_t i = 0;
    while (i < count && terms[i] != term) {
        i += 1;
    }
    return i < count;
}

/* What a GLN has at a term: these use the scheme, or ignore it, or are no term. */
static struct partyid_answer gln_at(uint32_t term)
{
    const uint32_t by_scheme[] = {29, 30, 34, 46, 47, 49, 60, 61};
    const uint32_t by_content[] = {31, 48, 63};
    if (among(term, by_scheme, 8)) {
        return accepted(40, FATAL);
    }
    return among(term, by_content, 3) ? unread(562, WARNING) : refused(0, 0, TERM);
}

static void terms(void)
{
    for (uint32_t term = 0; term < 300; term += 1) {
        FIELD(TEXT("0088"), term, TEXT("17"), gln_at(term));
    }
    /* a term whose last byte, or last two, are those of 34 */
    const uint32_t others[] = {0, 28, 33, 34 + 256, 34 + 65536, 34 + 0x1000000, 34 + 0x80000000, UINT32_MAX};
    for (size_t i = 0; i < sizeof others / sizeof others[0]; i += 1) {
        FIELD(TEXT("0088"), others[i], TEXT("17"), refused(0, 0, TERM));
        FIELD(TEXT("0060"), others[i], TEXT("17"), refused(0, 0, TERM));
        FIELD(TEXT(""), others[i], TEXT(""), refused(0, 0, TERM));
        FIELD(times(10000, '0'), others[i], times(10000, '\xFF'), refused(0, 0, TERM));
    }
}

/* 9907 has a rule at 34 and 49 only. */
static void tax_code(void)
{
    const uint32_t by_scheme[] = {29, 30, 34, 46, 47, 49, 60, 61};
    for (size_t i = 0; i < sizeof by_scheme / sizeof by_scheme[0]; i += 1) {
        bool ruled = by_scheme[i] == 34 || by_scheme[i] == 49;
        FIELD(TEXT("9907"), by_scheme[i], TEXT("12345678901"), ruled ? accepted(46, WARNING) : no_rule());
    }
}

/* A scheme is compared byte for byte: no blank is dropped, no zero ends it, and no beginning is taken for the whole. */
static void schemes(void)
{
    FIELD(TEXT(""), 34, TEXT("17"), no_rule());
    FIELD(TEXT("008"), 34, TEXT("17"), no_rule());
    FIELD(TEXT("00888"), 34, TEXT("17"), no_rule());
    FIELD(TEXT("0088\0"), 34, TEXT("17"), no_rule());
    FIELD(TEXT(" 088"), 34, TEXT("17"), no_rule());
    FIELD(TEXT("0088 "), 34, TEXT("17"), no_rule());
    FIELD(TEXT("0060"), 34, TEXT("x"), no_rule());
    FIELD(TEXT("9901"), 34, TEXT("17"), no_rule());
    FIELD(TEXT("\xFF\xFF\xFF\xFF"), 34, TEXT("17"), no_rule());
    FIELD(TEXT(""), 34, TEXT(""), no_rule());
    FIELD(TEXT("0088"), 34, TEXT(""), refused(40, FATAL, FORM));
    FIELD(times(10000, '0'), 34, TEXT("17"), no_rule());
    FIELD(joined(TEXT("0088"), times(9996, '0')), 34, TEXT("17"), no_rule());
    FIELD(joined(TEXT("0088"), times(9996, '0')), 31, TEXT("NL123456789B12"), accepted(562, WARNING));
    FIELD(joined(TEXT("0088"), times(9996, '0')), 31, TEXT(""), unread(562, WARNING));
}

/* Where there is no rule a content is not looked at, however long or bad it is. */
static void unlooked(void)
{
    FIELD(TEXT("0060"), 34, times(1025, 'x'), no_rule());
    FIELD(TEXT("0060"), 34, times(10000, 'x'), no_rule());
    FIELD(TEXT("0060"), 34, TEXT("\xFF"), no_rule());
    FIELD(TEXT(""), 34, TEXT("\xED\xA0\x80"), no_rule());
    FIELD(times(10000, '\xFF'), 34, times(10000, '\xFF'), no_rule());
}

void test_field(void)
{
    terms();
    tax_code();
    schemes();
    unlooked();
}
