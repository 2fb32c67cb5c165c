/* The library behind two pipes: reads one call after the other with what is lent, and answers each with what it returns and what stands in
 * the lent areas then. src/served.rs runs it in an emulator. */
#include "slipcoacher.h"
#include <stdio.h>
#include <stdlib.h>
#include <sys/uio.h>
#include <unistd.h>

enum call { CREATE, OPEN, AGAIN, PUT, LAST, LIST, KIOSK_NUMBER, INPUT_NUMBER, LAYOUT };

/* The areas come behind it, in this order, so that each is aligned. The last is not sent back. */
struct request {
    uint64_t call;
    uint64_t values[2];  /* what goes by value beside the structs, in the header's order */
    uint64_t numbers;    /* bytes of the powers or the table */
    uint64_t written;    /* bytes of the journal, the text or what is said again, which is written */
    uint64_t read;       /* bytes of the journal that is only read */
    struct slip_kiosk kiosk;
    struct slip_input input;
};

union answer {
    struct slip_made made;
    struct slip_reply reply;
    struct slip_part part;
    struct slip_page page;
    uint64_t number;
};

static struct {
    struct request request;
    uint8_t areas[1 << 21];
} taken;

static void stop(const char *why)
{
    fprintf(stderr, "served: %s\n", why);
    exit(1);
}

/* A whole request, or 0 where none follows. */
static int take(void)
{
    const struct request *r = &taken.request;
    size_t got = 0, whole = sizeof *r;
    while (got < whole) {
        ssize_t more = read(STDIN_FILENO, (uint8_t *)&taken + got, sizeof taken - got);
        if (more == 0 && got == 0)
            return 0;
        if (more <= 0)
            stop("a request was cut short, or lends too much");
        got += (size_t)more;
        if (got >= sizeof *r)
            whole = sizeof *r + r->numbers + r->written + r->read;
    }
    return 1;
}

/* The bytes of what the call returns. */
static size_t call(union answer *answer)
{
    const struct request *r = &taken.request;
    uint64_t *table = (uint64_t *)taken.areas;
    size_t places = r->numbers / sizeof *table;
    uint8_t *written = taken.areas + r->numbers;
    uint8_t *only_read = written + r->written;
    switch (r->call) {
    case CREATE:
        answer->made = slip_create((uint16_t *)taken.areas, r->numbers / sizeof(uint16_t), r->values[0], (uint32_t)r->values[1],
                                   written, r->written);
        return sizeof answer->made;
    case OPEN:
        answer->reply = slip_open(only_read, r->read, r->values[0], table, places);
        return sizeof answer->reply;
    case AGAIN:
        answer->reply = slip_again(only_read, r->read, r->values[0], table, places, written, r->written);
        return sizeof answer->reply;
    case PUT:
        answer->reply = slip_put(r->kiosk, r->input, table, places, written, r->written);
        return sizeof answer->reply;
    case LAST:
        answer->part = slip_last(r->kiosk, only_read, r->read);
        return sizeof answer->part;
    case LIST:
        answer->page = slip_list(only_read, r->read, written, r->written);
        return sizeof answer->page;
    case KIOSK_NUMBER:
        answer->number = slip_kiosk_number(r->kiosk, r->values[0], r->values[1]);
        return sizeof answer->number;
    case INPUT_NUMBER:
        answer->number = slip_input_number(r->input, r->values[0]);
        return sizeof answer->number;
    case LAYOUT:
        answer->reply = slip_layout(r->kiosk, (uint8_t)r->values[0]);
        return sizeof answer->reply;
    }
    stop("no such call");
    return 0;
}

int main(void)
{
    union answer answer;
    while (take()) {
        size_t size = call(&answer), back = taken.request.numbers + taken.request.written;
        struct iovec parts[] = {{&answer, size}, {taken.areas, back}};
        if (writev(STDOUT_FILENO, parts, 2) != (ssize_t)(size + back))
            stop("an answer was not taken");
    }
    return 0;
}
