/* One line, and many lines at once. */
#include "batch.h"

/* ---- One line */

static void line(struct bytes bytes, struct partyid_answer expected)
{
    for (int way = 0; way < ways(bytes); way += 1) {
        struct block lent = lend(bytes, way == 1);
        same_answer(expected, partyid_answer_line(lent.at, lent.len));
        give_back(lent);
    }
}

#define ONE(bytes, expected) (AT_THIS_LINE, line(bytes, expected))
#define MALFORMED(literal) ONE(TEXT(literal), refused(0, 0, LINE))

static void heads(void)
{
    MALFORMED("");
    MALFORMED("0088");
    MALFORMED("0088 34");
    MALFORMED("0088 3417");
    MALFORMED("0088  34 17");
    MALFORMED("0088 3a 17");
    MALFORMED("0088 /4 17");
    MALFORMED("0088 3: 17");
    MALFORMED("0088 134 17");
    MALFORMED("0088,34 17");
    MALFORMED("0088 34,17");
    MALFORMED("088 34 17");
    MALFORMED("\xFF\xFF\xFF\xFF\xFF\xFF\xFF\xFF");
    ONE(times(10000, ' '), refused(0, 0, LINE));
    ONE(times(10000, '\xFF'), refused(0, 0, LINE));
}

static void answered(void)
{
    ONE(TEXT("0088 34 71"), refused(40, FATAL, CHECK));
    ONE(TEXT("0088 34 17"), accepted(40, FATAL));
    ONE(TEXT("0060 34 x"), no_rule());
    ONE(TEXT("0088 34 "), refused(40, FATAL, FORM));
    ONE(TEXT("0088 34 17\r"), accepted(40, FATAL));
    ONE(TEXT("0184 34 12345678\r"), refused(42, FATAL, FORM));
    ONE(TEXT("9907 49 12345678901"), accepted(46, WARNING));
    ONE(TEXT("     48 DE1"), unread(562, WARNING));
    ONE(TEXT("\xFF\0\0\xFF 34 x"), no_rule());
    ONE(TEXT("0088 00 17"), refused(0, 0, TERM));
    ONE(TEXT("0088 28 17"), refused(0, 0, TERM));
    ONE(TEXT("0088 33 17"), refused(0, 0, TERM));
    ONE(TEXT("0088 34 \xED\xA0\x80"), refused(40, FATAL, UTF8));
}

static void long_lines(void)
{
    ONE(joined(TEXT("0088 34 "), times(1024, '0')), accepted(40, FATAL));
    ONE(joined(TEXT("0088 34 "), times(1025, '0')), refused(40, FATAL, LONG));
    ONE(joined(TEXT("0088 34 "), times(10000, '0')), refused(40, FATAL, LONG));
    ONE(joined(TEXT("0088 34 "), times(10000, '\xFF')), refused(40, FATAL, LONG));
    ONE(joined(TEXT("0088 34 "), times(1024, '\xFF')), refused(40, FATAL, UTF8));
    ONE(joined(TEXT("0060 34 "), times(10000, '\xFF')), no_rule());
    ONE(joined(TEXT("0088 35 "), times(10000, '\xFF')), refused(0, 0, TERM));
}

/* ---- Many lines */

/* Also tallied: afresh, and by a tally that is full after two lines. */
static void lines_in_all_ways(struct bytes text)
{
    const struct tally fresh = zeros();
    const struct tally two_left = with(fresh, 17, PARTYID_TALLY_LIMIT - 2);
    lines_by_room(text, NULL);
    lines_by_room(text, &fresh);
    lines_by_room(text, &two_left);
}

#define LINES(text) (AT_THIS_LINE, lines_in_all_ways(text))

/* The first example of docs/RULES.md, The line program, with room for all of it, for two lines and a part, and for none. */
static void example(void)
{
    const struct batch all = {{3, 32}, {2, 40, 1, 4, 1, 40, 1, 0, 0, 0, 0, 0}, zeros()};
    const struct batch two = {{2, 22}, {2, 40, 1, 4, 1, 40, 1, 0}, zeros()};
    const struct batch none = {{0, 0}, {0}, zeros()};
    struct bytes text = TEXT("0088 34 71\n0088 34 17\n0060 34 x\n");
    AT_THIS_LINE;
    lines(text, NULL, 12, all);
    lines(text, NULL, 13, all);
    lines(text, NULL, 11, two);
    lines(text, NULL, 3, none);
    lines(text, NULL, 0, none);
}

static void texts_of_lines(void)
{
    LINES(TEXT(""));
    LINES(TEXT("\n"));
    LINES(TEXT("\n\n\n"));
    LINES(TEXT("x"));
    LINES(TEXT("0088 34 71\n0088 34 17\n0060 34 x\n"));
    LINES(TEXT("0088 34 71\n0088 34 17\n0060 34 x")); /* a last line without newline counts */
    LINES(TEXT("0088 34 71\r\n\r\n0184 34 12345678\r\n"));
    LINES(TEXT("\xFF\n0088 34 \xFF\n0088 34 17\0\n\0"));
    LINES(joined(joined(TEXT("0088 34 "), times(1024, '0')), TEXT("\n0088 34 17\n")));
    LINES(joined(joined(TEXT("0088 34 "), times(1025, '0')), TEXT("\n0088 34 17\n")));
    LINES(joined(joined(TEXT("0088 34 "), times(10000, '\xFF')), TEXT("\n0088 34 17")));
    LINES(times(10000, 'x'));
    LINES(times(10000, '\n'));
}

/* Called again with the text from where the call before ended: six lines in three calls, and nothing is left. */
static void called_again(void)
{
    struct bytes text = TEXT("0088 34 71\n\n0088 34 17\nx\n0060 34 x\n0192 34 000000000");
    size_t from = 0;
    size_t count = 0;
    for (int call = 0; call < 3; call += 1) {
        uint32_t two_lines[2 * PARTYID_ANSWER_NUMBERS];
        struct partyid_batch found = partyid_answer_lines(text.at + from, text.len - from, two_lines, 2 * PARTYID_ANSWER_NUMBERS);
        from += found.used;
        count += found.count;
    }
    AT_THIS_LINE;
    same_number("lines in several calls", 6, count);
    same_number("bytes used in several calls", text.len, from);
}

/* A literal and an array of answers, as they are. */
static void without_casts(void)
{
    struct partyid_answer answers[2];
    struct partyid_batch found = partyid_check_lines("0088 34 71\n0088 34 17\n", 22, answers, 2);
    AT_THIS_LINE;
    same_number("lines", 2, found.count);
    same_answer(refused(40, FATAL, CHECK), answers[0]);
    same_answer(accepted(40, FATAL), answers[1]);
}

void test_lines(void)
{
    heads();
    answered();
    long_lines();
    example();
    texts_of_lines();
    called_again();
    without_casts();
}
