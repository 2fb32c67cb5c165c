/* The stack that each call takes below its caller, arguments by value included, with the deepest firing; and the header's numbers for it.
 * In the deepest call rule 55 enters a round, and 22, 34, 36, 47 and 49 fire there: six outputs. */
#include "slipcoacher.h"
#include <stdio.h>

size_t stack_used(void (*call)(void *), void *with);

static const uint16_t powers[3] = {5, 3, 1};
static uint8_t journal[SLIP_ROOMY], text[SLIP_TEXT], said[SLIP_AGAIN];
static uint64_t table[SLIP_TABLE];
static struct slip_reply reply;
static struct slip_made made;
static struct slip_part part;
static struct slip_page page;
static struct slip_input input;
static uint64_t seen;

static void create(void *none)
{
    (void)none;
    made = slip_create(powers, 3, 0, 3, journal, sizeof journal);
}

static void open_all(void *used)
{
    reply = slip_open(journal, sizeof journal, *(size_t *)used, table, SLIP_TABLE);
}

static void again(void *used)
{
    reply = slip_again(journal, sizeof journal, *(size_t *)used, table, SLIP_TABLE, said, sizeof said);
}

static void put(void *none)
{
    (void)none;
    reply = slip_put(reply.kiosk, input, table, SLIP_TABLE, journal, sizeof journal);
}

static void last(void *none)
{
    (void)none;
    part = slip_last(reply.kiosk, journal, sizeof journal);
}

static void list(void *used)
{
    page = slip_list(journal, *(size_t *)used, text, sizeof text);
}

static void kiosk_number(void *none)
{
    (void)none;
    seen = slip_kiosk_number(reply.kiosk, SLIP_F_LOG, 0);
}

static void input_number(void *none)
{
    (void)none;
    seen = slip_input_number(input, 0);
}

static void layout(void *none)
{
    (void)none;
    reply = slip_layout(reply.kiosk, 0);
}

static int wrong;

static void told(const char *what, size_t used, size_t said)
{
    printf("%s %zu of %zu\n", what, used, said);
    wrong += used == 0 || used > said || said - used >= 64;
}

static size_t deepest_put(void)
{
    const struct slip_input inputs[] = {
        {.kind = SLIP_IN_START, .height = 3, .offer = 9},
        {.kind = SLIP_IN_PROPOSAL, .height = 3, .sender = 1, .round = 1, .verdict = 1, .name = 50},
        {.kind = SLIP_IN_PREVOTE, .height = 3, .sender = 1, .round = 1, .name = 50},
        {.kind = SLIP_IN_PRECOMMIT, .height = 3, .sender = 1, .round = 1, .name = 50},
        {.kind = SLIP_IN_PREVOTE, .height = 3, .sender = 2, .round = 1},
    };
    size_t most = 0;
    for (size_t i = 0; i < sizeof inputs / sizeof *inputs; i++) {
        input = inputs[i];
        size_t used = stack_used(put, NULL);
        most = used > most ? used : most;
        wrong += reply.number != SLIP_ACCEPTED;
    }
    wrong += reply.count != SLIP_SENT || reply.kiosk.phase != SLIP_SETTLED;
    return most;
}

int main(void)
{
    told("create", stack_used(create, NULL), SLIP_STACK_CREATE);
    open_all(&made.used);
    told("put", deepest_put(), SLIP_STACK_PUT);
    size_t used = reply.kiosk.used;
    told("open", stack_used(open_all, &used), SLIP_STACK_OPEN);
    wrong += reply.number != SLIP_ACCEPTED || reply.kiosk.used != used;
    told("again", stack_used(again, &used), SLIP_STACK_AGAIN);
    wrong += reply.number != SLIP_ACCEPTED || said[0] != 4;
    told("last", stack_used(last, NULL), SLIP_STACK_LAST);
    told("list", stack_used(list, &used), SLIP_STACK_LIST);
    wrong += part.count != SLIP_MOST_GROUP || page.number != SLIP_ACCEPTED;
    printf("others %zu %zu %zu\n", stack_used(kiosk_number, NULL), stack_used(input_number, NULL), stack_used(layout, NULL));
    return wrong;
}
