/* The version and the words, and that they are there for any number. */
#include "kit.h"

#include <string.h>

typedef const char *words_call(uint32_t number);

static void same_words(const char *expected, const char *found)
{
    same_number("length of the words", strlen(expected), strlen(found));
    same_number("words", 0, strcmp(expected, found) == 0 ? 0 : 1);
}

#define WORDS(expected, found) (AT_THIS_LINE, same_words(expected, found))

/* Each number below `count` has words of its own; every other one is unknown. tests/agree.py compares the words themselves. */
static void all_words(words_call *words, uint32_t count)
{
    for (uint32_t n = 0; n < count; n += 1) {
        for (uint32_t other = 0; other < n; other += 1) {
            same_number("the same words", 0, strcmp(words(n), words(other)) == 0 ? 1 : 0);
        }
        same_number("unknown", 0, strcmp(words(n), "unknown") == 0 ? 1 : 0);
    }
    WORDS("unknown", words(count));
    WORDS("unknown", words(count + 1));
    WORDS("unknown", words(UINT32_MAX));
}

static void versions(void)
{
    WORDS(PARTYID_VERSION, partyid_version());
#define AS_TEXT(number) #number
#define AS_VERSION(major, minor, patch) AS_TEXT(major) "." AS_TEXT(minor) "." AS_TEXT(patch)
    WORDS(PARTYID_VERSION, AS_VERSION(PARTYID_VERSION_MAJOR, PARTYID_VERSION_MINOR, PARTYID_VERSION_PATCH));
}

void test_words(void)
{
    versions();
    WORDS("refused", partyid_verdict_words(PARTYID_VERDICT_REFUSED));
    WORDS("fatal", partyid_severity_words(PARTYID_SEVERITY_FATAL));
    WORDS("no check figure completes the body", partyid_reason_words(PARTYID_REASON_NO_FIGURE));
    all_words(partyid_verdict_words, PARTYID_VERDICT_UNREAD + 1);
    all_words(partyid_severity_words, PARTYID_SEVERITY_WARNING + 1);
    all_words(partyid_reason_words, PARTYID_REASON_FULL + 1);
}
