/*
 * partyid.h - checks of party identifiers on invoices, for C11 and C++17.
 *
 *     struct partyid_answer answer = partyid_check("0088", 4, 34, "71", 2);
 *     puts(partyid_reason_words(answer.reason));
 *
 * Every function takes any bytes and asks nothing of its caller but what a pointer with its length is: so many bytes that may be
 * read, or written where the area is not const; a text's area has 1,024 bytes, a tally 53 numbers. A pointer whose length is 0 may be null. An area must not overlap another argument.
 * Nothing is kept between calls and nothing is allocated, so that functions may be called from several threads at once.
 *
 * A number that passes says nothing about whether the party exists: a check figure finds slips of the hand, and knows no register.
 *
 * Each answer is proved equal to a definition; docs/PROMISES.md names it for each function. Bytes are handed over as void *, so that a string
 * literal, a char array and a uint8_t array are taken as they are.
 */
#ifndef PARTYID_H
#define PARTYID_H

#include <stdbool.h>
#include <stddef.h>
#include <stdint.h>

#ifdef __cplusplus
extern "C" {
#endif

/* The version of the library that this header belongs to. */
#define PARTYID_VERSION_MAJOR 0
#define PARTYID_VERSION_MINOR 1
#define PARTYID_VERSION_PATCH 0
#define PARTYID_VERSION "0.1.0"

/* The bytes of the area that a text is written to, and the most that a content may have where a rule reads it. */
#define PARTYID_AREA 1024

/* The most digits of a number that partyid_list takes. */
#define PARTYID_LIST_DIGITS 20

/* A number as a size_t, by the cast of the language at hand. */
#ifdef __cplusplus
#define PARTYID_SIZE(n) static_cast<size_t>(n)
#else
#define PARTYID_SIZE(n) ((size_t)(n))
#endif

/* The bytes that partyid_list needs for a number of n digits: room for 2n - 1 entries. */
#define PARTYID_LIST_ROOM(n) ((2 * PARTYID_SIZE(n) - 1) * PARTYID_SIZE(n))

/* The numbers of an answer that partyid_answer_lines writes for each line. */
#define PARTYID_ANSWER_NUMBERS 4

/* The counts of a tally, and the most lines that they count together. */
#define PARTYID_TALLY_COUNTS 53
#define PARTYID_TALLY_LIMIT 4294967295u

enum partyid_verdict {
    PARTYID_VERDICT_NO_RULE = 0,  /* no rule reads such a field */
    PARTYID_VERDICT_ACCEPTED = 1, /* the rule accepts the content */
    PARTYID_VERDICT_REFUSED = 2,  /* refused; the reason says why */
    PARTYID_VERDICT_UNREAD = 3    /* let through unread: the rule is not about such a content */
};

enum partyid_severity {
    PARTYID_SEVERITY_NO_SEVERITY = 0, /* no rule */
    PARTYID_SEVERITY_FATAL = 1,
    PARTYID_SEVERITY_WARNING = 2
};

enum partyid_reason {
    PARTYID_REASON_NO_REASON = 0, /* not refused, or the work is done */
    PARTYID_REASON_LONG = 1,      /* the content has more than 1,024 bytes, and a rule reads it */
    PARTYID_REASON_UTF8 = 2,      /* the content is not well-formed UTF-8, and a rule reads it */
    PARTYID_REASON_FORM = 3,      /* the form is not met */
    PARTYID_REASON_CHECK = 4,     /* the form is met and the check figure is wrong */
    PARTYID_REASON_ZERO = 5,      /* 0192: nine zeros, or eight to complete */
    PARTYID_REASON_NO_FIGURE = 6, /* 0192: no figure completes the body */
    PARTYID_REASON_SCHEME = 7,    /* only 0088, 0192, 0208, 0007 and 0151 are completed and listed */
    PARTYID_REASON_ROOM = 8,      /* the output area is too short */
    PARTYID_REASON_GOOD = 9,      /* the number is accepted: there is nothing to correct */
    PARTYID_REASON_TERM = 10,     /* the term number is none that a rule reads */
    PARTYID_REASON_LINE = 11,     /* a line whose head is malformed */
    PARTYID_REASON_FULL = 12      /* the tally can count no further line */
};

/* Whether a scheme code is withdrawn. */
enum partyid_withdrawal {
    PARTYID_WITHDRAWAL_NOT_WITHDRAWN = 0,
    PARTYID_WITHDRAWAL_NO_SUCCESSOR = 1,
    PARTYID_WITHDRAWAL_SUCCESSOR = 2
};

/* A code point and how many bytes it takes, 1 to 4; code 0 with length 0 is the refusal. */
struct partyid_point {
    uint32_t code;
    size_t len;
};

/* What came of a text: a reason, and the length of what stands in the area. */
struct partyid_text {
    uint32_t reason; /* enum partyid_reason */
    size_t len;
};

/* The answer of a check. The rule is the published number (561 and 562 for R056-1 and R056-2), 0 where there is none. */
struct partyid_answer {
    uint32_t verdict;  /* enum partyid_verdict */
    uint32_t rule;
    uint32_t severity; /* enum partyid_severity */
    uint32_t reason;   /* enum partyid_reason */
};

/* A withdrawn code's answer; the successor is four zeros where there is none. It is not ended by a zero. */
struct partyid_code {
    uint32_t answer; /* enum partyid_withdrawal */
    uint8_t successor[4];
};

/* What came of a completion or a listing: a reason, and how many digits or entries were written. */
struct partyid_done {
    uint32_t reason; /* enum partyid_reason */
    size_t count;
};

/* How many lines were answered, and how many bytes of the text they are. */
struct partyid_batch {
    size_t count;
    size_t used;
};

/* ---- Checks */

/* The check of a field: the scheme's bytes, the number of the business term (29, 30, 31, 34, 46 to 49, 60, 61, 63) and the content. */
struct partyid_answer partyid_check(const void *scheme, size_t scheme_len, uint32_t term, const void *content, size_t content_len);

/* IBAN: 5 to 34 letters or digits once white is removed, and remainder 1 by 97. That is the whole test: no country's length. */
struct partyid_answer partyid_is_valid_iban_checksum(const void *content, size_t content_len);

/* Creditor identifier: its form alone. */
struct partyid_answer partyid_is_valid_creditor_identifier(const void *content, size_t content_len);

/* Strict GLN: with scheme 0088 exactly 13 digits, as they stand, and the check digit. Any other scheme: no rule. */
struct partyid_answer partyid_eas_value(const void *scheme, size_t scheme_len, const void *content, size_t content_len);

/* Whether a scheme code is withdrawn, and what took its place. */
struct partyid_code partyid_withdrawn(const void *code, size_t code_len);

/* ---- Completing and listing: 0088, 0192, 0208, 0007, 0151. A refusal changes no byte of the area. */

/* The check figure that completes a body of digits: two digits for 0208 and 0151, one for the others. The area needs 2 bytes in
   any case, and the figure stands at its start. For 0151 the two digits belong in front of the body, for the others behind it. */
struct partyid_done partyid_complete(const void *scheme, size_t scheme_len, const void *body, size_t body_len, void *out, size_t out_len);

/* Every number that is as long as a refused number of n digits, is accepted, and differs from it in one digit or by exchanging two
   unequal neighbours: first the replacements, then the exchanges, each from the left. Each entry is n digits, one after another. The area
   needs PARTYID_LIST_ROOM(n) bytes, whatever is found; n is the length of the normalised content. Bytes after the last entry stay. */
struct partyid_done partyid_list(const void *scheme, size_t scheme_len, const void *content, size_t content_len, void *out, size_t out_len);

/* ---- Many lines at once */

/* The answer to one line, without its newline: the four bytes of the scheme, a space, the two digits of the term, a space, the content. Content
   beyond 1,025 bytes is not read. */
struct partyid_answer partyid_answer_line(const void *line, size_t line_len);

/* The answers to the lines of a text, four numbers for each line as in struct partyid_answer, for as many lines as the area has
   room: out_len is its size in numbers, and below PARTYID_ANSWER_NUMBERS no line is answered. Numbers after the last answer stay. Where used is
   less than text_len, call again with the text from there. The last line needs no newline: cut a longer text behind a newline, or
   the line that is cut is answered in two halves. */
struct partyid_batch partyid_answer_lines(const void *text, size_t text_len, uint32_t *out, size_t out_len);

/* The same into an array of answers: out_len is how many it has room for. */
static inline struct partyid_batch partyid_check_lines(const void *text, size_t text_len, struct partyid_answer *out, size_t out_len)
{
    return partyid_answer_lines(text, text_len, out_len == 0 ? NULL : &out->verdict, out_len * PARTYID_ANSWER_NUMBERS);
}

/* ---- A tally: lines answered, and counted by rule and verdict

   Its counts are exactly PARTYID_TALLY_COUNTS numbers that the caller lends, by a pointer that must not be null. First come the rules in the order of their
   numbers (40 to 47, 49, 50, 52 to 55, 57, 561, 562) with three counts each: accepted, refused, let through unread. Then the lines that no rule
   reads, and last those refused before a rule is chosen (TERM, LINE). A fresh tally is zeros: uint32_t counts[PARTYID_TALLY_COUNTS] = {0}. */

/* The answer to one line, as partyid_answer_line gives it, and the count of its rule and verdict goes up by one. Where the counts already add up to PARTYID_TALLY_LIMIT
   or more, the line is refused (FULL) and no count changes. */
struct partyid_answer partyid_tally_line(const void *line, size_t line_len, uint32_t *counts);

/* The answers to the lines of a text, as partyid_answer_lines gives them, with each line counted as above. A line that is not answered is not
   counted, so that a call with the rest of the text goes on where this one ends. Of a text that is cut inside a line both halves are counted: cut it
   behind a newline. */
struct partyid_batch partyid_tally_lines(const void *text, size_t text_len, uint32_t *counts, uint32_t *out, size_t out_len);

/* The same into an array of answers: out_len is how many it has room for. */
static inline struct partyid_batch partyid_tally_check_lines(const void *text, size_t text_len, uint32_t *counts, struct partyid_answer *out,
                                                             size_t out_len)
{
    return partyid_tally_lines(text, text_len, counts, out_len == 0 ? NULL : &out->verdict, out_len * PARTYID_ANSWER_NUMBERS);
}

/* ---- Text */

/* The code point that begins at a byte of a content, by RFC 3629; refused past the end. */
struct partyid_point partyid_decode(const void *content, size_t content_len, size_t at);

/* Whether a code point is one of the 25 white ones. */
bool partyid_is_white(uint32_t c);

/* White at both ends dropped, each inner run of it one space. The text stands at the start of an area of exactly PARTYID_AREA bytes,
   zeros after it; a refusal (LONG, UTF8) leaves it all zeros. The area must not be null. */
struct partyid_text partyid_normalize_space(const void *content, size_t content_len, void *area);

/* Every white point removed; the area as above. */
struct partyid_text partyid_strip(const void *content, size_t content_len, void *area);

/* ---- Words, and reading a tally. These decide nothing, and are not proved. A number that stands for nothing is "unknown". */

/* The version of the library that is linked, as PARTYID_VERSION. */
const char *partyid_version(void);

const char *partyid_verdict_words(uint32_t verdict);
const char *partyid_severity_words(uint32_t severity);
const char *partyid_reason_words(uint32_t reason);

/* The count of a rule's number and a verdict in a tally. Rule 0 has two: verdict 0, and verdict 2. A pair that has no count gives 0. */
uint32_t partyid_tally_count(const uint32_t *counts, uint32_t rule, uint32_t verdict);

#ifdef __cplusplus
}
#endif

#endif
