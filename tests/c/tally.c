/* A tally: where each line is counted, its limit, and many lines. */
#include "batch.h"

#define LENGTH(array) (sizeof(array) / sizeof((array)[0]))

/* ---- One line */

static void fed(struct tally before, struct bytes line, struct partyid_answer expected, struct tally after)
{
    for (int way = 0; way < 2 * ways(line); way += 1) {
        struct block lent = lend(line, way / 2 == 1);
        struct area counts = lend_tally(way % 2 == 0 ? ALONE : GUARDED, &before);
        same_answer(expected, partyid_tally_line(lent.at, lent.len, counts_of(counts)));
        end_tally(counts, &after);
        give_back(lent);
    }
}

/* Every count is another. */
static struct tally steps(void)
{
    struct tally tally;
    for (uint32_t i = 0; i < PARTYID_TALLY_COUNTS; i += 1) {
        tally.counts[i] = 1000 + 7 * i;
    }
    return tally;
}

static struct tally all(uint32_t count)
{
    struct tally tally;
    for (size_t i = 0; i < PARTYID_TALLY_COUNTS; i += 1) {
        tally.counts[i] = count;
    }
    return tally;
}

/* The line is counted at a place and nowhere else, and partyid_tally_count finds it there by its answer. The last two tallies have room for one line. */
static void counted(struct bytes line, struct partyid_answer expected, size_t at)
{
    const size_t other = (at + 1) % PARTYID_TALLY_COUNTS;
    const struct tally tallies[] = {zeros(), steps(), with(zeros(), at, PARTYID_TALLY_LIMIT - 1), with(zeros(), other, PARTYID_TALLY_LIMIT - 1)};
    for (size_t i = 0; i < LENGTH(tallies); i += 1) {
        uint32_t count = tallies[i].counts[at];
        struct tally after = with(tallies[i], at, count + 1);
        fed(tallies[i], line, expected, after);
        same_number("count by rule and verdict", count + 1, partyid_tally_count(after.counts, expected.rule, expected.verdict));
        if (i >= 2) {
            fed(after, line, refused(0, 0, FULL), after);
        }
    }
}

#define COUNTED(literal, answer, at) (AT_THIS_LINE, counted(TEXT(literal), answer, at))

static void accepted_lines(void)
{
    COUNTED("0088 34 17", accepted(40, FATAL), 0);
    COUNTED("0192 34 123456785", accepted(41, FATAL), 3);
    COUNTED("0184 34 12345678", accepted(42, FATAL), 6);
    COUNTED("0208 34 1234567894", accepted(43, FATAL), 9);
    COUNTED("0201 34 ABC123", accepted(44, WARNING), 12);
    COUNTED("0210 34 12345678901", accepted(45, WARNING), 15);
    COUNTED("9907 49 12345678901", accepted(46, WARNING), 18);
    COUNTED("0211 34 IT12345678903", accepted(47, WARNING), 21);
    COUNTED("0007 34 1234567897", accepted(49, FATAL), 24);
    COUNTED("0151 34 51824753556", accepted(50, FATAL), 27);
    COUNTED("0096 34 1234567890", accepted(52, FATAL), 30);
    COUNTED("0198 34 DK12345678", accepted(53, FATAL), 33);
    COUNTED("0106 34 12345678", accepted(54, WARNING), 36);
    COUNTED("0190 34 12345678901234567890", accepted(55, WARNING), 39);
    COUNTED("0217 34 123456789012", accepted(57, WARNING), 42);
    COUNTED("9944 34 NL123456789B12", accepted(561, WARNING), 45);
    COUNTED("0088 31 NL123456789B12", accepted(562, WARNING), 48);
}

static void refused_lines(void)
{
    COUNTED("0088 34 71", refused(40, FATAL, CHECK), 1);
    COUNTED("0088 34 ", refused(40, FATAL, FORM), 1);
    COUNTED("0088 34 \xFF", refused(40, FATAL, UTF8), 1);
    COUNTED("0192 34 000000000", refused(41, FATAL, ZERO), 4);
    COUNTED("0184 34 1", refused(42, FATAL, FORM), 7);
    COUNTED("0208 34 0000009700", refused(43, FATAL, CHECK), 10);
    COUNTED("0201 34 ABC12", refused(44, WARNING, FORM), 13);
    COUNTED("0210 34 1", refused(45, WARNING, FORM), 16);
    COUNTED("9907 49 1", refused(46, WARNING, FORM), 19);
    COUNTED("0211 34 IT12345678904", refused(47, WARNING, CHECK), 22);
    COUNTED("0007 34 1234567896", refused(49, FATAL, CHECK), 25);
    COUNTED("0151 34 00000000000", refused(50, FATAL, CHECK), 28);
    COUNTED("0096 34 1", refused(52, FATAL, FORM), 31);
    COUNTED("0198 34 1", refused(53, FATAL, FORM), 34);
    COUNTED("0106 34 1", refused(54, WARNING, FORM), 37);
    COUNTED("0190 34 1", refused(55, WARNING, FORM), 40);
    COUNTED("0217 34 1", refused(57, WARNING, FORM), 43);
    COUNTED("9944 34 1", refused(561, WARNING, FORM), 46);
    COUNTED("0088 63 NL1", refused(562, WARNING, FORM), 49);
}

/* Rules 47 and 562 alone let a content through. */
static void other_lines(void)
{
    COUNTED("0211 34 It1", unread(47, WARNING), 23);
    COUNTED("     48 DE1", unread(562, WARNING), 50);
    COUNTED("0060 34 x", no_rule(), 51);
    COUNTED("0088 33 17", refused(0, 0, TERM), 52);
    COUNTED("0088 3x 17", refused(0, 0, LINE), 52);
    COUNTED("", refused(0, 0, LINE), 52);
    AT_THIS_LINE;
    counted(joined(TEXT("0088 34 "), times(10000, '\xFF')), refused(40, FATAL, LONG), 1);
}

/* ---- The limit */

/* Their counts add up to the limit, and to 2^32, 2^32 + 5, 2^33, 2^37, and all the numbers that there are: a sum that is cut to 32 bits is small. */
static void full_tallies(void)
{
    const uint32_t most = UINT32_MAX;
    struct tally by_37_bits = zeros();
    for (size_t i = 0; i < 32; i += 1) {
        by_37_bits.counts[i] = most;
    }
    const struct tally tallies[] = {
        with(zeros(), 0, most),
        with(zeros(), 52, most),
        with(with(zeros(), 20, most - 1), 51, 1),
        with(all(81037118), 30, 81037118 + 41),
        with(with(zeros(), 0, most), 1, 1),
        with(with(zeros(), 0, 5), 52, most - 4),
        with(with(zeros(), 0, 6), 52, most),
        with(with(with(zeros(), 0, most), 1, most), 2, 2),
        with(by_37_bits, 40, 32),
        all(most),
    };
    const struct bytes each[] = {TEXT("0088 34 17"), TEXT("0088 34 71"), TEXT("0211 34 It1"), TEXT("0060 34 x"), TEXT("0088 33 17"), TEXT("")};
    for (size_t i = 0; i < LENGTH(tallies); i += 1) {
        for (size_t line = 0; line < LENGTH(each); line += 1) {
            AT_THIS_LINE;
            fed(tallies[i], each[line], refused(0, 0, FULL), tallies[i]);
        }
    }
}

/* The counts of all places add up, and not the highest alone. */
static void one_below_the_limit(void)
{
    struct tally spread = with(all(81037118), 30, 81037118 + 40);
    struct tally full = with(spread, 51, 81037118 + 1);
    AT_THIS_LINE;
    fed(spread, TEXT("0060 34 x"), no_rule(), full);
    fed(full, TEXT("0060 34 x"), refused(0, 0, FULL), full);
}

/* ---- Many lines */

/* Lines for which there is no room are not counted. */
static void rooms(void)
{
    const struct bytes text = TEXT("0088 34 71\n0088 34 17\n0060 34 x\n\n0088 34 17");
    const struct tally fresh = zeros();
    const struct tally two = with(with(fresh, 0, 1), 1, 1);
    const struct tally five = with(with(with(two, 0, 2), 51, 1), 52, 1);
    const struct batch of_five = {{5, 43}, {2, 40, 1, 4, 1, 40, 1, 0, 0, 0, 0, 0, 2, 0, 0, 11, 1, 40, 1, 0}, five};
    const struct batch of_two = {{2, 22}, {2, 40, 1, 4, 1, 40, 1, 0}, two};
    const struct batch of_none = {{0, 0}, {0}, fresh};
    AT_THIS_LINE;
    lines(text, &fresh, 20, of_five);
    lines(text, &fresh, 23, of_five);
    lines(text, &fresh, 11, of_two);
    lines(text, &fresh, 8, of_two);
    lines(text, &fresh, 3, of_none);
    lines(text, &fresh, 0, of_none);
}

/* The first lines are counted, and those behind the limit answered FULL, whatever they are. */
static void limit_within_a_text(void)
{
    const struct bytes text = TEXT("0088 34 71\n0060 34 x\n0088 34 17\nx\n0211 34 It1\n");
    const struct tally before = with(zeros(), 4, PARTYID_TALLY_LIMIT - 2);
    const struct tally after = with(with(before, 1, 1), 51, 1);
    const struct batch crossed = {{5, 46}, {2, 40, 1, 4, 0, 0, 0, 0, 2, 0, 0, 12, 2, 0, 0, 12, 2, 0, 0, 12}, after};
    const struct batch three = {{3, 32}, {2, 40, 1, 4, 0, 0, 0, 0, 2, 0, 0, 12}, after};
    const struct tally overfull = all(UINT32_MAX);
    const struct batch none_counted = {{2, 21}, {2, 0, 0, 12, 2, 0, 0, 12}, overfull};
    AT_THIS_LINE;
    lines(text, &before, 20, crossed);
    lines(text, &before, 12, three);
    lines(text, &overfull, 8, none_counted);
}

/* A tally goes from call to call: a literal, an array of counts and one of answers, as they are. */
static void called_again(void)
{
    uint32_t counts[PARTYID_TALLY_COUNTS] = {0};
    struct partyid_answer answers[2];
    for (int call = 0; call < 3; call += 1) {
        struct partyid_batch found = partyid_tally_check_lines("0088 34 71\n0088 34 17\n", 22, counts, answers, 2);
        AT_THIS_LINE;
        same_number("lines", 2, found.count);
        same_answer(refused(40, FATAL, CHECK), answers[0]);
        same_answer(accepted(40, FATAL), answers[1]);
    }
    same_answer(refused(0, 0, LINE), partyid_tally_line("0088", 4, counts));
    same_number("accepted by rule 40", 3, partyid_tally_count(counts, 40, PARTYID_VERDICT_ACCEPTED));
    same_number("refused by rule 40", 3, partyid_tally_count(counts, 40, PARTYID_VERDICT_REFUSED));
    same_number("refused without a rule", 1, partyid_tally_count(counts, 0, PARTYID_VERDICT_REFUSED));
}

/* ---- A count by rule and verdict */

/* tests/agree.py compares every pair that has a count. */
static void pairs_without_a_count(void)
{
    const struct tally tally = steps();
    const uint32_t no_rules[] = {1, 39, 48, 51, 56, 58, 560, 563, UINT32_MAX};
    for (size_t i = 0; i < LENGTH(no_rules); i += 1) {
        for (uint32_t verdict = 0; verdict <= 4; verdict += 1) {
            AT_THIS_LINE;
            same_number("count of no rule", 0, partyid_tally_count(tally.counts, no_rules[i], verdict));
        }
    }
    const uint32_t no_verdicts[][2] = {{0, 1}, {0, 3}, {0, 4}, {0, UINT32_MAX}, {40, 0}, {40, 4}, {40, UINT32_MAX}, {562, 0}, {562, 4}};
    for (size_t i = 0; i < LENGTH(no_verdicts); i += 1) {
        AT_THIS_LINE;
        same_number("count of no verdict", 0, partyid_tally_count(tally.counts, no_verdicts[i][0], no_verdicts[i][1]));
    }
}

void test_tally(void)
{
    accepted_lines();
    refused_lines();
    other_lines();
    full_tallies();
    one_below_the_limit();
    rooms();
    limit_within_a_text();
    called_again();
    pairs_without_a_count();
}
