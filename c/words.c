/* The version and the words of the library for C, and the counts of a tally by rule and verdict. Nothing here decides anything, and nothing here is proved:
   tests/agree.py holds the words to those of the bindings, the counts to the order of the rules, and the version to every other place that names it. */
#include "partyid.h"

#define COUNT(words) (sizeof(words) / sizeof((words)[0]))

static const char *const verdicts[] = {
    [PARTYID_VERDICT_NO_RULE] = "no rule",
    [PARTYID_VERDICT_ACCEPTED] = "accepted",
    [PARTYID_VERDICT_REFUSED] = "refused",
    [PARTYID_VERDICT_UNREAD] = "let through unread",
};

static const char *const severities[] = {
    [PARTYID_SEVERITY_NO_SEVERITY] = "no severity",
    [PARTYID_SEVERITY_FATAL] = "fatal",
    [PARTYID_SEVERITY_WARNING] = "warning",
};

static const char *const reasons[] = {
    [PARTYID_REASON_NO_REASON] = "no reason",
    [PARTYID_REASON_LONG] = "the content is over 1,024 bytes",
    [PARTYID_REASON_UTF8] = "the content is not well-formed UTF-8",
    [PARTYID_REASON_FORM] = "the form is not met",
    [PARTYID_REASON_CHECK] = "the form is met and the check figure is wrong",
    [PARTYID_REASON_ZERO] = "all digits are zero",
    [PARTYID_REASON_NO_FIGURE] = "no check figure completes the body",
    [PARTYID_REASON_SCHEME] = "only 0088, 0192, 0208, 0007 and 0151 can be completed or listed",
    [PARTYID_REASON_ROOM] = "the output area is too short",
    [PARTYID_REASON_GOOD] = "the number is accepted, so there is nothing to correct",
    [PARTYID_REASON_TERM] = "the term number is none that a rule reads",
    [PARTYID_REASON_LINE] = "the head of the line is malformed",
    [PARTYID_REASON_FULL] = "the tally is full",
};

/* In the order of a tally's counts, and the two others behind them. */
static const uint32_t rules[] = {40, 41, 42, 43, 44, 45, 46, 47, 49, 50, 52, 53, 54, 55, 57, 561, 562};
enum { VERDICTS = 3, NO_RULE = VERDICTS * COUNT(rules), REFUSED_WITHOUT_RULE = NO_RULE + 1 };

static const char *word(const char *const *words, size_t count, uint32_t number)
{
    return number < count ? words[number] : "unknown";
}

const char *partyid_version(void)
{
    return PARTYID_VERSION;
}

const char *partyid_verdict_words(uint32_t verdict)
{
    return word(verdicts, COUNT(verdicts), verdict);
}

const char *partyid_severity_words(uint32_t severity)
{
    return word(severities, COUNT(severities), severity);
}

const char *partyid_reason_words(uint32_t reason)
{
    return word(reasons, COUNT(reasons), reason);
}

static uint32_t count_without_rule(const uint32_t *counts, uint32_t verdict)
{
    switch (verdict) {
    case PARTYID_VERDICT_NO_RULE:
        return counts[NO_RULE];
    case PARTYID_VERDICT_REFUSED:
        return counts[REFUSED_WITHOUT_RULE];
    default:
        return 0;
    }
}

uint32_t partyid_tally_count(const uint32_t *counts, uint32_t rule, uint32_t verdict)
{
    if (rule == 0) {
        return count_without_rule(counts, verdict);
    }
    for (size_t i = 0; i < COUNT(rules); i += 1) {
        if (rules[i] == rule && verdict >= PARTYID_VERDICT_ACCEPTED && verdict <= PARTYID_VERDICT_UNREAD) {
            return counts[VERDICTS * i + verdict - PARTYID_VERDICT_ACCEPTED];
        }
    }
    return 0;
}
