/* IBAN, creditor identifier, strict GLN, and the withdrawn codes. */
#include "field.h"

/* A check that takes a content and nothing else. */
typedef struct partyid_answer content_check(const void *content, size_t content_len);

static void account(content_check *check, struct bytes content, struct partyid_answer expected)
{
    for (int way = 0; way < ways(content); way += 1) {
        struct block lent = lend(content, way == 1);
        same_answer(expected, check(lent.at, lent.len));
        give_back(lent);
    }
}

#define IBAN(content, expected) (AT_THIS_LINE, account(partyid_is_valid_iban_checksum, content, expected))
#define CREDITOR(content, expected) (AT_THIS_LINE, account(partyid_is_valid_creditor_identifier, content, expected))

static void iban(void)
{
    IBAN(TEXT("AA750"), accepted(0, 0));
    IBAN(TEXT("aa750"), accepted(0, 0));
    IBAN(TEXT("DE89370400440532013000"), accepted(0, 0));
    IBAN(TEXT(" DE89 3704 0044\t0532\xE2\x80\x83" "0130 00\n"), accepted(0, 0));
    IBAN(TEXT("GB82WEST12345698765432"), accepted(0, 0));
    IBAN(TEXT("gb82west12345698765432"), accepted(0, 0));
    IBAN(TEXT("ZZ64AAAAAAAAAAAAAAAAAAAAAAAAAAAAAA"), accepted(0, 0)); /* 34 characters */
    IBAN(TEXT("AA751"), refused(0, 0, CHECK));
    IBAN(TEXT("DE89370400440532013001"), refused(0, 0, CHECK));
    IBAN(TEXT("ED89370400440532013000"), refused(0, 0, CHECK));
    /* remainder 1, and yet too short and too long */
    IBAN(TEXT("AA75"), refused(0, 0, FORM));
    IBAN(TEXT("ZZ81AAAAAAAAAAAAAAAAAAAAAAAAAAAAAAA"), refused(0, 0, FORM));
    IBAN(TEXT("A1750"), refused(0, 0, FORM));
    IBAN(TEXT("AAA50"), refused(0, 0, FORM));
    IBAN(TEXT("AA75-0"), refused(0, 0, FORM));
    IBAN(TEXT("AA75\xC3\xA9"), refused(0, 0, FORM));
    IBAN(TEXT("AA750\0"), refused(0, 0, FORM));
}

static void creditor(void)
{
    CREDITOR(TEXT("DE98ZZZ09999999999"), accepted(0, 0));
    CREDITOR(TEXT("de98zzz0"), accepted(0, 0)); /* 8 characters; no check figure is looked at */
    CREDITOR(TEXT("DE00 ZZZ 0999\xC2\xA0" "9999999"), accepted(0, 0));
    CREDITOR(joined(TEXT("DE98"), times(31, 'Z')), accepted(0, 0));
    CREDITOR(TEXT("DE98ZZZ"), refused(0, 0, FORM));
    CREDITOR(joined(TEXT("DE98"), times(32, 'Z')), refused(0, 0, FORM));
    CREDITOR(TEXT("D198ZZZ09999999999"), refused(0, 0, FORM));
    CREDITOR(TEXT("DEX8ZZZ09999999999"), refused(0, 0, FORM));
    CREDITOR(TEXT("DE98ZZZ-9999999999"), refused(0, 0, FORM));
}

/* What both refuse before they look at a form. */
static void bad_accounts(content_check *check)
{
    AT_THIS_LINE;
    account(check, TEXT(""), refused(0, 0, FORM));
    account(check, TEXT(" \xC2\x85"), refused(0, 0, FORM));
    account(check, times(1024, '0'), refused(0, 0, FORM));
    account(check, times(1024, ' '), refused(0, 0, FORM));
    AT_THIS_LINE;
    account(check, times(1025, '0'), refused(0, 0, LONG));
    account(check, times(1025, ' '), refused(0, 0, LONG));
    account(check, times(1025, '\xFF'), refused(0, 0, LONG));
    account(check, times(10000, 'A'), refused(0, 0, LONG));
    AT_THIS_LINE;
    account(check, times(1024, '\xFF'), refused(0, 0, UTF8));
    account(check, TEXT("AA750\xC0\x80"), refused(0, 0, UTF8));
    account(check, TEXT("AA750\xED\xBF\xBF"), refused(0, 0, UTF8));
    account(check, TEXT("AA750\xF0\x9F\x98"), refused(0, 0, UTF8));
}

static void strict_gln(struct bytes scheme, struct bytes content, struct partyid_answer expected)
{
    for (int way = 0; way < ways(scheme) * ways(content); way += 1) {
        struct block lent_scheme = lend(scheme, way % ways(scheme) == 1);
        struct block lent_content = lend(content, way / ways(scheme) == 1);
        same_answer(expected, partyid_eas_value(lent_scheme.at, lent_scheme.len, lent_content.at, lent_content.len));
        give_back(lent_scheme);
        give_back(lent_content);
    }
}

#define STRICT(scheme, content, expected) (AT_THIS_LINE, strict_gln(scheme, content, expected))

static void gln_of_13(void)
{
    STRICT(TEXT("0088"), TEXT("1234567890128"), accepted(0, 0));
    STRICT(TEXT("0088"), TEXT("0000000000000"), accepted(0, 0));
    STRICT(TEXT("0088"), TEXT("1234567890127"), refused(0, 0, CHECK));
    STRICT(TEXT("0088"), TEXT(" 1234567890128"), refused(0, 0, FORM));
    STRICT(TEXT("0088"), TEXT("1234567890128\n"), refused(0, 0, FORM));
    STRICT(TEXT("0088"), TEXT("000000000000"), refused(0, 0, FORM));
    STRICT(TEXT("0088"), TEXT("00000000000000"), refused(0, 0, FORM));
    STRICT(TEXT("0088"), TEXT("123456789012X"), refused(0, 0, FORM));
    STRICT(TEXT("0088"), TEXT("17"), refused(0, 0, FORM));
    STRICT(TEXT("0088"), TEXT(""), refused(0, 0, FORM));
    STRICT(TEXT("0088"), times(1024, '0'), refused(0, 0, FORM));
    STRICT(TEXT("0088"), times(1025, '0'), refused(0, 0, LONG));
    STRICT(TEXT("0088"), times(10000, '\xFF'), refused(0, 0, LONG));
    STRICT(TEXT("0088"), TEXT("123456789012\xFF"), refused(0, 0, UTF8));
}

/* The content of any other scheme is not looked at. */
static void gln_of_another_scheme(void)
{
    STRICT(TEXT(""), TEXT("1234567890128"), no_rule());
    STRICT(TEXT(""), TEXT(""), no_rule());
    STRICT(TEXT("008"), TEXT("1234567890128"), no_rule());
    STRICT(TEXT("00880"), TEXT("1234567890128"), no_rule());
    STRICT(TEXT("0060"), times(10000, 'x'), no_rule());
    STRICT(TEXT("0192"), TEXT("\xFF"), no_rule());
    STRICT(times(10000, '0'), TEXT("1234567890128"), no_rule());
    STRICT(joined(TEXT("0088"), times(9996, '0')), TEXT("1234567890127"), no_rule());
}

static void withdrawal(struct bytes code, uint32_t answer, const char *successor)
{
    for (int way = 0; way < ways(code); way += 1) {
        struct block lent = lend(code, way == 1);
        struct partyid_code found = partyid_withdrawn(lent.at, lent.len);
        same_number("withdrawal", answer, found.answer);
        same_bytes("successor", (const uint8_t *)successor, found.successor, 4);
        give_back(lent);
    }
}

#define REPLACED(code, successor) (AT_THIS_LINE, withdrawal(TEXT(code), PARTYID_WITHDRAWAL_SUCCESSOR, successor))
#define STANDS(code) (AT_THIS_LINE, withdrawal(code, PARTYID_WITHDRAWAL_NOT_WITHDRAWN, "\0\0\0\0"))

static void withdrawn(void)
{
    REPLACED("9901", "0096");
    REPLACED("9902", "0184");
    REPLACED("9904", "0198");
    REPLACED("9906", "0211");
    REPLACED("9907", "0210");
    REPLACED("9917", "0196");
    REPLACED("9921", "0201");
    REPLACED("9954", "0190");
    REPLACED("9955", "0007");
    REPLACED("9956", "0208");
    REPLACED("9958", "0204");
    AT_THIS_LINE;
    withdrawal(TEXT("9905"), PARTYID_WITHDRAWAL_NO_SUCCESSOR, "\0\0\0\0");
}

static void not_withdrawn(void)
{
    STANDS(TEXT("0088"));
    STANDS(TEXT("9903"));
    STANDS(TEXT("9944"));
    STANDS(TEXT("none"));
    STANDS(TEXT(""));
    STANDS(TEXT("990"));
    STANDS(TEXT("99010"));
    STANDS(TEXT("9901 "));
    STANDS(TEXT("9901 0096"));
    STANDS(TEXT("\xFF\xFF\xFF\xFF"));
    STANDS(times(10000, '9'));
    STANDS(joined(TEXT("9901"), times(9996, '9')));
}

void test_accounts(void)
{
    iban();
    creditor();
    bad_accounts(partyid_is_valid_iban_checksum);
    bad_accounts(partyid_is_valid_creditor_identifier);
    gln_of_13();
    gln_of_another_scheme();
    withdrawn();
    not_withdrawn();
}
