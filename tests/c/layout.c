/* The layout of the structs that are handed over by value, on x86-64, where the archive is for. */
#include "kit.h"

#define SIZE(type, size) (AT_THIS_LINE, same_number("size of " #type, size, sizeof(struct type)))
#define FIELD_AT(type, field, offset) (AT_THIS_LINE, same_number("place of " #type "." #field, offset, offsetof(struct type, field)))

void test_layout(void)
{
    SIZE(partyid_point, 16);
    FIELD_AT(partyid_point, code, 0);
    FIELD_AT(partyid_point, len, 8);
    SIZE(partyid_text, 16);
    FIELD_AT(partyid_text, reason, 0);
    FIELD_AT(partyid_text, len, 8);
    SIZE(partyid_answer, 16);
    FIELD_AT(partyid_answer, verdict, 0);
    FIELD_AT(partyid_answer, rule, 4);
    FIELD_AT(partyid_answer, severity, 8);
    FIELD_AT(partyid_answer, reason, 12);
    SIZE(partyid_code, 8);
    FIELD_AT(partyid_code, answer, 0);
    FIELD_AT(partyid_code, successor, 4);
    SIZE(partyid_done, 16);
    FIELD_AT(partyid_done, reason, 0);
    FIELD_AT(partyid_done, count, 8);
    SIZE(partyid_batch, 16);
    FIELD_AT(partyid_batch, count, 0);
    FIELD_AT(partyid_batch, used, 8);
}
