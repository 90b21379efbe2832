/* What a call is lent, through the header: with an output of one byte too few it is refused by 1, and state, store and output hold
 * the bytes they held; with one of WIPTURAY_OUTPUT bytes it is accepted. */
#include "wipturay.h"

#include <stdio.h>
#include <string.h>

/* State, store and output, and how many bytes of the output are lent. */
struct lent {
    struct wipturay_state state;
    uint8_t store[WIPTURAY_STORE];
    uint8_t output[WIPTURAY_OUTPUT];
    size_t output_len;
};

static struct lent lent, before;
static int failed;

/* Makes a call: its number. */
static int call(const uint8_t *bytes, size_t len)
{
    struct wipturay_answer answer =
        wipturay_call(lent.state, lent.store, sizeof lent.store, lent.output, lent.output_len, bytes, len);
    lent.state = answer.state;
    return answer.number;
}

/* Makes a call with an output of so many bytes: does it get this number, and change something exactly if that is 0? */
static void expect(const char *name, const uint8_t *bytes, size_t len, size_t output_len, int number)
{
    lent.output_len = output_len;
    before = lent;
    int got = call(bytes, len);
    int same = memcmp(&lent, &before, sizeof lent) == 0;
    if (got == number && same == (number != 0))
        return;
    printf("%s, an output of %zu bytes: number %d for %d, %s\n", name, output_len, got, number,
           same ? "nothing changed" : "something changed");
    failed = 1;
}

#define EXPECT(bytes, output_len, number) expect(#bytes, bytes, sizeof bytes, output_len, number)

int main(void)
{
    /* start: carrier 05fa, T251 four slots */
    const uint8_t start[] = {0x21, 0, 4, 0x05, 0xfa, 0, 4};
    /* data request: SSI 0003e9, FCS flag, receipt 7, an SDU of 16 bits */
    const uint8_t request[] = {0x24, 0, 27, 0x00, 0x03, 0xe9, 1, 0, 0, 0, 0, 0, 0, 0, 0,    0,
                               0,    0, 0,  0,    0,    0,    2, 0, 7, 0, 0, 16, 0x4d, 0x31};
    /* frame: SSI 0003e9 on carrier 05fa, BL-DATA with N(S) 1 */
    const uint8_t frame[] = {0x26, 0, 18, 0x00, 0x03, 0xe9, 1, 0x05, 0xfa, 0, 0, 0, 0, 0, 0, 0, 0, 0, 0, 5, 0x18};
    const uint8_t tick_end[] = {0x23, 0, 0};

    memset(&lent, 0xa5, sizeof lent);
    lent.state = wipturay_new();
    EXPECT(start, WIPTURAY_OUTPUT - 1, 1);
    EXPECT(start, WIPTURAY_OUTPUT, 0);
    EXPECT(request, WIPTURAY_OUTPUT - 1, 1);
    EXPECT(request, WIPTURAY_OUTPUT, 0);
    EXPECT(frame, WIPTURAY_OUTPUT - 1, 1);
    EXPECT(frame, WIPTURAY_OUTPUT, 0);
    EXPECT(tick_end, WIPTURAY_OUTPUT - 1, 1);
    EXPECT(tick_end, WIPTURAY_OUTPUT, 0);
    return failed;
}
