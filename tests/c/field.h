/* The check of a field, with each way to lend its scheme and its content. */
#ifndef FIELD_H
#define FIELD_H

#include "kit.h"

void field(struct bytes scheme, uint32_t term, struct bytes content, struct partyid_answer expected);
#define FIELD(scheme, term, content, expected) (AT_THIS_LINE, field(scheme, term, content, expected))

enum {
    FATAL = PARTYID_SEVERITY_FATAL,
    WARNING = PARTYID_SEVERITY_WARNING,
    LONG = PARTYID_REASON_LONG,
    UTF8 = PARTYID_REASON_UTF8,
    FORM = PARTYID_REASON_FORM,
    CHECK = PARTYID_REASON_CHECK,
    ZERO = PARTYID_REASON_ZERO,
    NO_FIGURE = PARTYID_REASON_NO_FIGURE,
    SCHEME = PARTYID_REASON_SCHEME,
    ROOM = PARTYID_REASON_ROOM,
    GOOD = PARTYID_REASON_GOOD,
    TERM = PARTYID_REASON_TERM,
    LINE = PARTYID_REASON_LINE,
    FULL = PARTYID_REASON_FULL
};

#endif
