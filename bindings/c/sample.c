/* Document 01's sample through the header: prints what the runner prints for the same calls. */
#include "wipturay.h"

#include <stdio.h>

static uint8_t store[WIPTURAY_STORE];
static uint8_t output[WIPTURAY_OUTPUT];
static struct wipturay_answer answer;

/* Each record as a line: a field is a tag, a length of two bytes and a value, and tag 1 begins a record. */
static void print_records(const uint8_t *records, size_t len)
{
    size_t at = 0;
    while (at < len) {
        size_t end = at + 3 + (records[at + 1] << 8 | records[at + 2]);
        while (at < end)
            printf("%02x", records[at++]);
        if (at == len || records[at] == 1)
            putchar('\n');
    }
}

/* Makes a call, and prints its number and its records. */
static void call(const uint8_t *bytes, size_t len)
{
    answer = wipturay_call(answer.state, store, sizeof store, output, sizeof output, bytes, len);
    printf("%d\n", answer.number);
    print_records(output, answer.len);
}

int main(void)
{
    /* start: carrier 05fa, T251 four slots */
    const uint8_t start[] = {0x21, 0, 4, 0x05, 0xfa, 0, 4};
    /* tick start: h 0, m 1, f 1, t 3 */
    const uint8_t tick_start[] = {0x22, 0, 5, 0, 0, 1, 1, 3};
    /* frame: SSI 0003e9 on carrier 05fa, BL-DATA with N(S) 1 */
    const uint8_t frame[] = {0x26, 0, 18, 0x00, 0x03, 0xe9, 1, 0x05, 0xfa, 0, 0, 0, 0, 0, 0, 0, 0, 0, 0, 5, 0x18};
    const uint8_t tick_end[] = {0x23, 0, 0};

    answer.state = wipturay_new();
    call(start, sizeof start);
    call(tick_start, sizeof tick_start);
    call(frame, sizeof frame);
    call(tick_end, sizeof tick_end);
    return 0;
}
