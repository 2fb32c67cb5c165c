/* A different number in every field of kiosk and input, read back by the library; and a reply that the library filled. */
#include "slipcoacher.h"
#include <stdio.h>
#include <string.h>

static int read_right, wrong;

static void check(const char *what, size_t at, uint64_t is, uint64_t right)
{
    read_right += is == right;
    if (is != right) {
        printf("%s %zu: %llu, not %llu\n", what, at, (unsigned long long)is, (unsigned long long)right);
        wrong++;
    }
}

int main(void)
{
    struct slip_kiosk k;
    memset(&k, 0xff, sizeof k); /* padding too */
    k.kiosks = SIZE_MAX - 1, k.own = SIZE_MAX - 2, k.used = SIZE_MAX - 3, k.last = SIZE_MAX - 4;
    k.locked_name = UINT64_MAX - 5, k.valid_name = UINT64_MAX - 6, k.height = UINT32_MAX - 7;
    k.phase = 1, k.settled = 2, k.round = 3, k.step = 4, k.asked_propose = 5, k.asked_prevote = 6, k.asked_precommit = 7;
    k.backed = 8, k.locked_next = 9, k.valid_next = 10;
    for (size_t i = 0; i < SLIP_KIOSKS; i++)
        k.powers[i] = (uint16_t)(60000 + i);
    for (size_t i = 0; i < 4 * SLIP_ROUNDS; i++)
        k.log[i / 4][i % 4] = (uint32_t)(4000000000u + i);

    const uint64_t single[] = {SIZE_MAX - 1, SIZE_MAX - 2, SIZE_MAX - 3, SIZE_MAX - 4, UINT64_MAX - 5, UINT64_MAX - 6, UINT32_MAX - 7,
                               0, 1, 2, 3, 4, 5, 6, 7, 8, 9, 10};
    for (size_t field = SLIP_F_KIOSKS; field <= SLIP_F_VALID_NEXT; field++)
        if (field != SLIP_F_POWERS)
            check("field", field, slip_kiosk_number(k, field, 0), single[field]);
    for (size_t i = 0; i < SLIP_KIOSKS; i++)
        check("power", i, slip_kiosk_number(k, SLIP_F_POWERS, i), 60000 + i);
    for (size_t i = 0; i < 4 * SLIP_ROUNDS; i++)
        check("log", i, slip_kiosk_number(k, SLIP_F_LOG, i), 4000000000u + i);

    struct slip_input input = {UINT64_MAX - 1, UINT64_MAX - 2, UINT32_MAX - 3, 4, 5, 6, 7, 8};
    const uint64_t numbers[] = {UINT64_MAX - 1, UINT64_MAX - 2, UINT32_MAX - 3, 4, 5, 6, 7, 8};
    for (size_t field = 0; field < 8; field++)
        check("input", field, slip_input_number(input, field), numbers[field]);

    struct slip_reply reply = slip_layout(k, 100);
    check("reply", 0, reply.number, 100);
    check("reply", 1, reply.place, 101);
    check("reply", 2, reply.count, 102);
    for (size_t i = 0; i < SLIP_SENT; i++) {
        check("name", i, reply.sent[i].name, 103 + 4 * i);
        check("kind", i, reply.sent[i].kind, 104 + 4 * i);
        check("round", i, reply.sent[i].round, 105 + 4 * i);
        check("valid", i, reply.sent[i].valid, 106 + 4 * i);
    }
    check("first and last of the state", 0, reply.kiosk.kiosks, SIZE_MAX - 1);
    check("first and last of the state", 1, reply.kiosk.powers[31], 60031);
    check("first and last of the state", 2, reply.kiosk.valid_next, 10);
    check("first and last of the state", 3, reply.kiosk.log[0][0], 4000000000u);
    check("first and last of the state", 4, reply.kiosk.log[15][3], 4000000063u);
    if (wrong == 0)
        printf("%d numbers, all where the library has them\n", read_right);
    return wrong != 0;
}
