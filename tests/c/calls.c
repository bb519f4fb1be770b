/* Calls every function of partyid.h, with the cases of docs/RULES.md and with bad calls, and checks each answer and every byte around it. */
#include "kit.h"

int main(void)
{
    test_layout();
    test_field();
    test_rules();
    test_accounts();
    test_completing();
    test_listing();
    test_content();
    test_lines();
    test_tally();
    test_words();
    return verdict_of_checks();
}
