/* Each rule's cases of docs/RULES.md, Cases on both sides. */
#include "field.h"

#include <string.h>

struct rule {
    const char *scheme;
    uint32_t term;
    uint32_t number;
    uint32_t severity;
};

static struct bytes scheme_of(struct rule rule)
{
    return text_of(rule.scheme, strlen(rule.scheme));
}

#define YES(rule, literal) FIELD(scheme_of(rule), (rule).term, TEXT(literal), accepted((rule).number, (rule).severity))
#define NO(rule, literal, reason) FIELD(scheme_of(rule), (rule).term, TEXT(literal), refused((rule).number, (rule).severity, reason))
#define LET(rule, literal) FIELD(scheme_of(rule), (rule).term, TEXT(literal), unread((rule).number, (rule).severity))

static const struct rule r40 = {"0088", 34, 40, FATAL};
static const struct rule r41 = {"0192", 34, 41, FATAL};
static const struct rule r42 = {"0184", 34, 42, FATAL};
static const struct rule r43 = {"0208", 34, 43, FATAL};
static const struct rule r44 = {"0201", 34, 44, WARNING};
static const struct rule r45 = {"0210", 34, 45, WARNING};
static const struct rule r46 = {"9907", 49, 46, WARNING};
static const struct rule r47 = {"0211", 34, 47, WARNING};
static const struct rule r49 = {"0007", 34, 49, FATAL};
static const struct rule r50 = {"0151", 34, 50, FATAL};
static const struct rule r52 = {"0096", 34, 52, FATAL};
static const struct rule r53 = {"0198", 34, 53, FATAL};
static const struct rule r54 = {"0106", 34, 54, WARNING};
static const struct rule r55 = {"0190", 34, 55, WARNING};
static const struct rule r57 = {"0217", 34, 57, WARNING};
static const struct rule r561 = {"9944", 34, 561, WARNING};
static const struct rule r562 = {"", 31, 562, WARNING};

static void gln(void)
{
    YES(r40, "0");
    YES(r40, "17");
    YES(r40, "505");
    YES(r40, "550");
    YES(r40, "1234567890128");
    YES(r40, "\xC2\xA0" "17"); /* U+00A0 is white */
    YES(r40, "\t 17\r\n");
    NO(r40, "", FORM);
    NO(r40, " ", FORM);
    NO(r40, "1 7", FORM);
    NO(r40, "17a", FORM);
    NO(r40, "17\0", FORM);
    NO(r40, "\xE2\x80\x8B" "17", FORM);             /* U+200B is not white */
    NO(r40, "\xEF\xBC\x91\xEF\xBC\x97", FORM);      /* wide digits are not ASCII */
    NO(r40, "71", CHECK);
    NO(r40, "1234567890127", CHECK);
}

static void norway(void)
{
    YES(r41, "123456785");
    YES(r41, "000000140");
    YES(r41, " 123456785 ");
    NO(r41, "000000000", ZERO);
    NO(r41, "123456784", CHECK);
    NO(r41, "12345678", FORM);
    NO(r41, "00000000", FORM);
    NO(r41, "1234567850", FORM);
    NO(r41, "12345678X", FORM);
    NO(r41, "", FORM);
}

static void denmark(void)
{
    YES(r42, "12345678");
    YES(r42, "DK12345678");
    NO(r42, " 12345678", FORM);
    NO(r42, "12345678\n", FORM);
    NO(r42, "dk12345678", FORM);
    NO(r42, "DK1234567", FORM);
    NO(r42, "", FORM);
    YES(r52, "1234567890");
    NO(r52, "1234567890 ", FORM);
    NO(r52, "123456789", FORM);
    NO(r52, "", FORM);
    YES(r53, "DK12345678");
    NO(r53, "12345678", FORM);
    NO(r53, "DK12345678 ", FORM);
    NO(r53, "", FORM);
}

static void belgium(void)
{
    YES(r43, "1234567894");
    YES(r43, "0000009797");
    NO(r43, "0000009700", CHECK);
    NO(r43, "1234567895", CHECK);
    NO(r43, "123456789", FORM);
    NO(r43, "12345678940", FORM);
    NO(r43, "", FORM);
}

/* Rules 45 and 46 count code points: three of three bytes each stand in the places 11 to 13. */
static void codice_fiscale(struct rule rule)
{
    YES(rule, "ABCDEF+1G 2xyz3H");
    YES(rule, "+1234567890");
    YES(rule, "12345678901");
    YES(rule, "ABCDEF12G34\xE2\x82\xAC\xE2\x82\xAC\xE2\x82\xAC" "5H");
    NO(rule, "ABCDEF12G34\xE2\x82\xAC" "5H", FORM);
    NO(rule, "1BCDEF12G34xyz5H", FORM);
    NO(rule, "ABCDEF1XG34xyz5H", FORM);
    NO(rule, "ABCDEF12G34xyzXH", FORM);
    NO(rule, "++123456789", FORM);
    NO(rule, "1234567890", FORM);
    NO(rule, "", FORM);
}

static void italy(void)
{
    YES(r44, "ABC123");
    YES(r44, " abcdef");
    NO(r44, "ABC12", FORM);
    NO(r44, "ABC-12", FORM);
    NO(r44, "", FORM);
    codice_fiscale(r45);
    codice_fiscale(r46);
    YES(r47, "IT12345678903");
    YES(r47, "it12345678903");
    NO(r47, "IT12345678904", CHECK);
    NO(r47, "IT1234567890", FORM);
    NO(r47, "IT", FORM);
    LET(r47, "It1");
    LET(r47, "iT12345678903");
    LET(r47, "I");
    LET(r47, "");
}

static void sweden(void)
{
    YES(r49, "1234567897");
    YES(r49, "0000000901");
    YES(r49, "0000000091");
    NO(r49, "1234567896", CHECK);
    NO(r49, "123456789", FORM);
    NO(r49, "123456-7897", FORM);
    NO(r49, "", FORM);
}

/* A leading zero counts -10: cut off at zero, the third would be refused. */
static void australia(void)
{
    YES(r50, "51824753556");
    YES(r50, "10000000000");
    YES(r50, "01000100000");
    NO(r50, "00000000000", CHECK);
    NO(r50, "51824753557", CHECK);
    NO(r50, "5182475355", FORM);
    NO(r50, "51 824 753 556", FORM);
    NO(r50, "", FORM);
}

static void lengths(void)
{
    YES(r54, "12345678");
    NO(r54, "1234567", FORM);
    NO(r54, "123456789", FORM);
    YES(r55, "12345678901234567890");
    NO(r55, "1234567890123456789", FORM);
    NO(r55, "123456789012345678901", FORM);
    YES(r57, "123456789012");
    NO(r57, "12345678901", FORM);
    NO(r57, "1234567890123", FORM);
}

static void netherlands(void)
{
    YES(r561, "NL123456789B12");
    YES(r561, "\xE2\x80\x83NL123456789B12");
    NO(r561, "NL123456789C12", FORM);
    NO(r561, "nl123456789B12", FORM);
    NO(r561, "", FORM);
    YES(r562, "NL123456789B12");
    NO(r562, "NL1", FORM);
    NO(r562, "NL123456789b12", FORM);
    LET(r562, "nl123456789B12");
    LET(r562, "DE123456789");
    LET(r562, "N");
    LET(r562, "");
}

/* The longest content that a rule reads is let through or refused for its form, and one byte more is LONG, also where it is not UTF-8. */
static void long_contents(struct rule rule, bool lets_through)
{
    struct partyid_answer unmet = lets_through ? unread(rule.number, rule.severity) : refused(rule.number, rule.severity, FORM);
    FIELD(scheme_of(rule), rule.term, times(1024, 'x'), unmet);
    FIELD(scheme_of(rule), rule.term, times(1025, 'x'), refused(rule.number, rule.severity, LONG));
    FIELD(scheme_of(rule), rule.term, times(10000, 'x'), refused(rule.number, rule.severity, LONG));
    FIELD(scheme_of(rule), rule.term, times(1025, ' '), refused(rule.number, rule.severity, LONG));
    FIELD(scheme_of(rule), rule.term, times(1024, '\xFF'), refused(rule.number, rule.severity, UTF8));
    FIELD(scheme_of(rule), rule.term, times(1025, '\xFF'), refused(rule.number, rule.severity, LONG));
}

/* Not well-formed in each way of RFC 3629: a byte that begins nothing, an overlong form, a surrogate, a point above 10FFFF, a cut sequence. */
static void bad_utf8(struct rule rule)
{
    NO(rule, "\x80", UTF8);
    NO(rule, "\xC0\x80", UTF8);
    NO(rule, "\xE0\x9F\xBF", UTF8);
    NO(rule, "\xED\xA0\x80", UTF8);
    NO(rule, "\xF4\x90\x80\x80", UTF8);
    NO(rule, "\xF5\x80\x80\x80", UTF8);
    NO(rule, "17\xC2", UTF8);
    NO(rule, "\xE2\x82", UTF8);
    NO(rule, "NL\xFF", UTF8);
}

static void unreadable(void)
{
    const struct rule rules[] = {r40, r41, r42, r43, r44, r45, r46, r47, r49, r50, r52, r53, r54, r55, r57, r561, r562};
    for (size_t i = 0; i < sizeof rules / sizeof rules[0]; i += 1) {
        long_contents(rules[i], rules[i].number == 47 || rules[i].number == 562);
        bad_utf8(rules[i]);
    }
}

void test_rules(void)
{
    gln();
    norway();
    denmark();
    belgium();
    italy();
    sweden();
    australia();
    lengths();
    netherlands();
    unreadable();
    FIELD(TEXT("0088"), 34, times(1024, '0'), accepted(40, FATAL));
    FIELD(TEXT("0088"), 34, joined(times(1022, ' '), TEXT("17")), accepted(40, FATAL));
}
