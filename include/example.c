/* One kiosk of four: its journal created and opened, a start and a vote put, the last group shown; then woken. */
#include "slipcoacher.h"
#include <stdio.h>
#include <stdlib.h>

static uint8_t journal[SLIP_ROOMY], said[SLIP_AGAIN];
static uint64_t table[SLIP_TABLE];

static struct slip_kiosk wake(size_t used)
{
    struct slip_reply reply = slip_again(journal, sizeof journal, used, table, SLIP_TABLE, said, sizeof said);
    if (reply.number != SLIP_ACCEPTED)
        exit(1);
    printf("opened: kiosk %zu of %zu, height %u\n", reply.kiosk.own, reply.kiosk.kiosks, (unsigned)reply.kiosk.height);
    /* Here the file is cut at kiosk.used and made durable; only then is it said again. */
    printf("said again: %u messages, %u timers\n", said[0], said[SLIP_LIST(said[0])]);
    return reply.kiosk;
}

static struct slip_kiosk put(struct slip_kiosk kiosk, struct slip_input input, const char *what)
{
    struct slip_reply reply = slip_put(kiosk, input, table, SLIP_TABLE, journal, sizeof journal);
    printf("%s: number %u, %zu outputs\n", what, (unsigned)reply.number, reply.count);
    /* Here the last group is made durable; only then are the outputs sent. */
    for (size_t i = 0; i < reply.count; i++)
        printf("  kind %u round %u name %llu\n", reply.sent[i].kind, reply.sent[i].round, (unsigned long long)reply.sent[i].name);
    return reply.kiosk;
}

int main(void)
{
    const uint16_t powers[4] = {1, 1, 1, 1};
    struct slip_made made = slip_create(powers, 4, 0, 1, journal, sizeof journal);
    if (made.number != SLIP_ACCEPTED)
        return 1;
    printf("created: %zu bytes\n", made.used);
    struct slip_kiosk kiosk = wake(made.used);
    kiosk = put(kiosk, (struct slip_input){.kind = SLIP_IN_START, .height = 1, .offer = 9}, "start");
    kiosk = put(kiosk, (struct slip_input){.kind = SLIP_IN_PREVOTE, .height = 1, .sender = 1, .name = 50}, "prevote");
    struct slip_part part = slip_last(kiosk, journal, sizeof journal);
    printf("last group: %zu bytes at %zu\n", part.count, part.from);
    wake(kiosk.used);
    return 0;
}
