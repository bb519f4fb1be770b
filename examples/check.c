/* Checks an identifier, and shows the numbers that the rule accepts and that one slip of the hand turns into it. C11 and C++17.

       check SCHEME TERM CONTENT

   As check 0088 34 71: scheme 0088 (GLN), BT-34 (the seller's electronic address). An accepted number says nothing about whether the party exists. */
#include <inttypes.h>
#include <partyid.h>
#include <stdio.h>
#include <string.h>

static void show_answer(struct partyid_answer answer)
{
    printf("%s", partyid_verdict_words(answer.verdict));
    if (answer.rule != 0) {
        printf(" by rule %" PRIu32, answer.rule);
    }
    if (answer.verdict == PARTYID_VERDICT_REFUSED) {
        printf(" (severity %s): %s", partyid_severity_words(answer.severity), partyid_reason_words(answer.reason));
    }
    printf("\n");
}

/* Each entry is as long as the normalised content. */
static void show_corrections(const char *scheme, const char *content)
{
    char entries[PARTYID_LIST_ROOM(PARTYID_LIST_DIGITS)];
    char normalized[PARTYID_AREA];
    struct partyid_done done = partyid_list(scheme, strlen(scheme), content, strlen(content), entries, sizeof entries);
    size_t width = partyid_normalize_space(content, strlen(content), normalized).len;
    if (done.reason != PARTYID_REASON_NO_REASON) {
        printf("no list: %s\n", partyid_reason_words(done.reason));
        return;
    }
    for (size_t i = 0; i < done.count; i += 1) {
        fwrite(entries + i * width, 1, width, stdout);
        printf("\n");
    }
}

int main(int argc, char **argv)
{
    uint32_t term = 0;
    if (argc != 4 || sscanf(argv[2], "%" SCNu32, &term) != 1) {
        fprintf(stderr, "usage: check SCHEME TERM CONTENT (libpartyid %s)\n", partyid_version());
        return 2;
    }
    struct partyid_answer answer = partyid_check(argv[1], strlen(argv[1]), term, argv[3], strlen(argv[3]));
    show_answer(answer);
    if (answer.verdict == PARTYID_VERDICT_REFUSED) {
        show_corrections(argv[1], argv[3]);
    }
    return answer.verdict == PARTYID_VERDICT_REFUSED ? 1 : 0;
}
