/* Completing a body of digits. */
#include "work.h"


/* ROOM below 2 bytes, also for one digit; the figure at the start of any longer area. */
static void completed(struct bytes scheme, struct bytes body, struct bytes figure)
{
    const size_t rooms[] = {2, 3, 100};
    for (size_t i = 0; i < sizeof rooms / sizeof rooms[0]; i += 1) {
        struct job job = {partyid_complete, scheme, body, rooms[i], done(figure.len), figure};
        run(job);
    }
    refusal(partyid_complete, scheme, body, 1, ROOM);
    refusal(partyid_complete, scheme, body, 0, ROOM);
}

/* The same reason with room and without, since ROOM comes last. */
static void not_completed(struct bytes scheme, struct bytes body, uint32_t reason)
{
    const size_t rooms[] = {0, 1, 2, 100};
    for (size_t i = 0; i < sizeof rooms / sizeof rooms[0]; i += 1) {
        refusal(partyid_complete, scheme, body, rooms[i], reason);
    }
}

#define COMPLETED(scheme, body, figure) (AT_THIS_LINE, completed(TEXT(scheme), TEXT(body), TEXT(figure)))
#define NOT_COMPLETED(scheme, body, reason) (AT_THIS_LINE, not_completed(scheme, body, reason))

static void figures(void)
{
    COMPLETED("0088", "1", "7");
    COMPLETED("0088", "0", "0");
    COMPLETED("0088", "123456789012", "8");
    COMPLETED("0088", "0000000000000000000", "0"); /* 19 digits */
    COMPLETED("0192", "12345678", "5");
    COMPLETED("0192", "00000014", "0");
    COMPLETED("0208", "12345678", "94");
    COMPLETED("0208", "00000097", "97");
    COMPLETED("0208", "00000000", "97");
    COMPLETED("0007", "123456789", "7");
    COMPLETED("0007", "000000090", "1");
    COMPLETED("0151", "824753556", "51");
    COMPLETED("0151", "000000000", "99"); /* of 10 and 99 the one in 11 to 99 */
}

static void bodies_without_figure(void)
{
    NOT_COMPLETED(TEXT("0192"), TEXT("00000000"), ZERO);
    NOT_COMPLETED(TEXT("0192"), TEXT("00000006"), NO_FIGURE);
}

static void bodies_of_another_form(struct bytes scheme, size_t least, size_t most)
{
    NOT_COMPLETED(scheme, TEXT(""), FORM);
    NOT_COMPLETED(scheme, times(least - 1, '1'), FORM);
    NOT_COMPLETED(scheme, times(most + 1, '1'), FORM);
    NOT_COMPLETED(scheme, joined(times(most - 1, '1'), TEXT("x")), FORM);
    NOT_COMPLETED(scheme, joined(TEXT(" "), times(most - 1, '1')), FORM);
    NOT_COMPLETED(scheme, joined(times(least, '1'), TEXT(" ")), FORM); /* a body is read raw */
    NOT_COMPLETED(scheme, times(most, '\xFF'), FORM);
    NOT_COMPLETED(scheme, times(1024, '1'), FORM);
    NOT_COMPLETED(scheme, times(1025, '1'), FORM);
    NOT_COMPLETED(scheme, times(10000, '1'), FORM);
}

static void other_schemes_completed(void)
{
    NOT_COMPLETED(TEXT("0184"), TEXT("12345678"), SCHEME);
    NOT_COMPLETED(TEXT("0211"), TEXT("1234567890"), SCHEME);
    NOT_COMPLETED(TEXT(""), TEXT("1"), SCHEME);
    NOT_COMPLETED(TEXT(""), TEXT(""), SCHEME);
    NOT_COMPLETED(TEXT("008"), TEXT("1"), SCHEME);
    NOT_COMPLETED(TEXT("00880"), TEXT("1"), SCHEME);
    NOT_COMPLETED(TEXT("0060"), times(10000, '\xFF'), SCHEME);
    NOT_COMPLETED(times(10000, '0'), TEXT("1"), SCHEME);
    NOT_COMPLETED(joined(TEXT("0088"), times(9996, '0')), TEXT("1"), SCHEME);
}

void test_completing(void)
{
    figures();
    bodies_without_figure();
    bodies_of_another_form(TEXT("0088"), 1, 19);
    bodies_of_another_form(TEXT("0192"), 8, 8);
    bodies_of_another_form(TEXT("0208"), 8, 8);
    bodies_of_another_form(TEXT("0007"), 9, 9);
    bodies_of_another_form(TEXT("0151"), 9, 9);
    other_schemes_completed();
}
