/* Code points, white points, and a content as text. */
#include "field.h"

#include <string.h>

/* ---- Code points */

static void point(struct bytes content, size_t at, uint32_t code, size_t len)
{
    for (int way = 0; way < ways(content); way += 1) {
        struct block lent = lend(content, way == 1);
        struct partyid_point found = partyid_decode(lent.at, lent.len, at);
        same_number("code point", code, found.code);
        same_number("length", len, found.len);
        give_back(lent);
    }
}

#define POINT(literal, code) (AT_THIS_LINE, point(TEXT(literal), 0, code, sizeof(literal) - 1))
#define NO_POINT(literal) (AT_THIS_LINE, point(TEXT(literal), 0, 0, 0))
#define AT(content, place, code, len) (AT_THIS_LINE, point(content, place, code, len))

/* RFC 3629's table at both ends of each row. */
static void well_formed(void)
{
    POINT("\0", 0);
    POINT("\x7F", 0x7F);
    POINT("\xC2\x80", 0x80);
    POINT("\xDF\xBF", 0x7FF);
    POINT("\xE0\xA0\x80", 0x800);
    POINT("\xE1\x80\x80", 0x1000);
    POINT("\xED\x9F\xBF", 0xD7FF);
    POINT("\xEE\x80\x80", 0xE000);
    POINT("\xEF\xBF\xBF", 0xFFFF);
    POINT("\xF0\x90\x80\x80", 0x10000);
    POINT("\xF1\x80\x80\x80", 0x40000);
    POINT("\xF4\x8F\xBF\xBF", 0x10FFFF);
}

static void ill_formed(void)
{
    NO_POINT("\x80");
    NO_POINT("\xBF");
    NO_POINT("\xC0\x80");
    NO_POINT("\xC1\xBF");
    NO_POINT("\xC2\x7F");
    NO_POINT("\xC2\xC0");
    NO_POINT("\xE0\x9F\xBF");
    NO_POINT("\xED\xA0\x80");
    NO_POINT("\xED\xBF\xBF");
    NO_POINT("\xE1\x80\x7F");
    NO_POINT("\xF0\x8F\xBF\xBF");
    NO_POINT("\xF4\x90\x80\x80");
    NO_POINT("\xF1\x80\x80\xC0");
    NO_POINT("\xF5\x80\x80\x80");
    NO_POINT("\xFF");
}

/* The block ends where the content does: a read for the rest of a cut sequence would be seen. */
static void cut_off(void)
{
    NO_POINT("\xC2");
    NO_POINT("\xE1");
    NO_POINT("\xE1\x80");
    NO_POINT("\xF1");
    NO_POINT("\xF1\x80");
    NO_POINT("\xF1\x80\x80");
}

static void places(void)
{
    struct bytes euro = TEXT("1\xE2\x82\xAC\xFF");
    AT(euro, 0, '1', 1);
    AT(euro, 1, 0x20AC, 3);
    AT(euro, 2, 0, 0);
    AT(euro, 4, 0, 0);
    AT(euro, 5, 0, 0);
    AT(euro, 6, 0, 0);
    AT(euro, SIZE_MAX, 0, 0);
    AT(TEXT(""), 0, 0, 0);
    AT(TEXT(""), 1, 0, 0);
    AT(TEXT(""), SIZE_MAX, 0, 0);
    AT(times(10000, '7'), 9999, '7', 1);
    AT(times(10000, '7'), 10000, 0, 0);
}

/* ---- White points */

static const uint32_t white_points[] = {0x09,   0x0A,   0x0B,   0x0C,   0x0D,   0x20,   0x85,   0xA0,   0x1680, 0x2000, 0x2001, 0x2002, 0x2003,
                                        0x2004, 0x2005, 0x2006, 0x2007, 0x2008, 0x2009, 0x200A, 0x2028, 0x2029, 0x202F, 0x205F, 0x3000};

/* These 25, and no other point there is; nor a number that is no point, its lower bytes those of one. */
static void white(void)
{
    const size_t count = sizeof white_points / sizeof white_points[0];
    AT_THIS_LINE;
    same_number("points listed", 25, count);
    for (size_t i = 0; i < count; i += 1) {
        same_number("white", 1, partyid_is_white(white_points[i]));
        same_number("white, above 65,535", 0, partyid_is_white(white_points[i] + 0x10000));
        same_number("white, above 2,147,483,647", 0, partyid_is_white(white_points[i] + 0x80000000));
    }
    same_number("white 4,294,967,295", 0, partyid_is_white(UINT32_MAX));
}

static void white_among_all(void)
{
    uint64_t found = 0;
    for (uint32_t c = 0; c <= 0x10FFFF; c += 1) {
        found += partyid_is_white(c) ? 1 : 0;
    }
    AT_THIS_LINE;
    same_number("white points of all", 25, found);
}

/* ---- Texts */

typedef struct partyid_text text_call(const void *content, size_t content_len, void *area);

/* The text, and zeros after it up to the area's end. */
static struct bytes whole_area(struct bytes text)
{
    static uint8_t bytes[PARTYID_AREA];
    memset(bytes, 0, sizeof bytes);
    memcpy(bytes, text.at, text.len);
    struct bytes whole = {bytes, sizeof bytes};
    return whole;
}

static void text_in(enum area_kind kind, text_call *call, struct bytes content, uint32_t reason, struct bytes text)
{
    for (int way = 0; way < ways(content); way += 1) {
        struct block lent = lend(content, way == 1);
        struct area area = new_area(kind, PARTYID_AREA);
        struct partyid_text found = call(lent.at, lent.len, area.at);
        same_number("reason", reason, found.reason);
        same_number("length", text.len, found.len);
        end_area(area, whole_area(text));
        give_back(lent);
    }
}

static void text(text_call *call, struct bytes content, uint32_t reason, struct bytes expected)
{
    text_in(ALONE, call, content, reason, expected);
    text_in(GUARDED, call, content, reason, expected);
}

/* A content, normalised and stripped. */
#define TEXTS(content, normal, stripped) \
    (AT_THIS_LINE, text(partyid_normalize_space, content, 0, normal), text(partyid_strip, content, 0, stripped))
#define NO_TEXT(content, reason) \
    (AT_THIS_LINE, text(partyid_normalize_space, content, reason, TEXT("")), text(partyid_strip, content, reason, TEXT("")))

static void texts(void)
{
    TEXTS(TEXT(""), TEXT(""), TEXT(""));
    TEXTS(TEXT(" "), TEXT(""), TEXT(""));
    TEXTS(TEXT("17"), TEXT("17"), TEXT("17"));
    TEXTS(TEXT("\xC2\xA0" "17"), TEXT("17"), TEXT("17"));
    TEXTS(TEXT(" 1  2 \n\xE2\x80\x83 3 "), TEXT("1 2 3"), TEXT("123"));
    TEXTS(TEXT("a\tb"), TEXT("a b"), TEXT("ab"));
    TEXTS(TEXT("\0 \0"), TEXT("\0 \0"), TEXT("\0\0"));
    TEXTS(TEXT("\xE2\x80\x8B" "1\xEF\xBB\xBF"), TEXT("\xE2\x80\x8B" "1\xEF\xBB\xBF"), TEXT("\xE2\x80\x8B" "1\xEF\xBB\xBF"));
    TEXTS(TEXT("Zo\xC3\xAB \xE2\x82\xAC\xF0\x9F\x98\x80"), TEXT("Zo\xC3\xAB \xE2\x82\xAC\xF0\x9F\x98\x80"),
          TEXT("Zo\xC3\xAB\xE2\x82\xAC\xF0\x9F\x98\x80"));
}

/* A text may fill the whole area; a content may be nothing but white. */
static void long_texts(void)
{
    TEXTS(times(1024, 'x'), times(1024, 'x'), times(1024, 'x'));
    TEXTS(times(1024, ' '), TEXT(""), TEXT(""));
    TEXTS(joined(times(1023, ' '), TEXT("x")), TEXT("x"), TEXT("x"));
    TEXTS(joined(times(511, 'x'), joined(TEXT(" "), times(512, 'y'))), joined(times(511, 'x'), joined(TEXT(" "), times(512, 'y'))),
          joined(times(511, 'x'), times(512, 'y')));
    NO_TEXT(times(1025, 'x'), LONG);
    NO_TEXT(times(1025, ' '), LONG);
    NO_TEXT(times(1025, '\xFF'), LONG);
    NO_TEXT(times(10000, 'x'), LONG);
}

/* What was read before the fault is not left in the area. */
static void bad_texts(void)
{
    NO_TEXT(TEXT("\xFF"), UTF8);
    NO_TEXT(TEXT("1234567890128\xFF"), UTF8);
    NO_TEXT(TEXT("1 \xED\xA0\x80"), UTF8);
    NO_TEXT(TEXT("\xC2\xA0\xC2"), UTF8);
    NO_TEXT(TEXT("1\xC0\xA0"), UTF8);
    NO_TEXT(TEXT("\xF4\x90\x80\x80"), UTF8);
    NO_TEXT(joined(times(1023, 'x'), TEXT("\xC2")), UTF8);
}

void test_content(void)
{
    well_formed();
    ill_formed();
    cut_off();
    places();
    white();
    white_among_all();
    texts();
    long_texts();
    bad_texts();
}
