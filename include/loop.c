/* The whole loop of a kiosk on a real file: loop FILE OWN HEIGHT OFFER POWER...
 * An input is a line of six numbers on standard input: kind, sender, round, valid round plus one, verdict, name. What a board sends, and
 * the timers that it starts, are printed. FILE is the journal of this height alone. */
#define _XOPEN_SOURCE 700
#include "slipcoacher.h"
#include <errno.h>
#include <fcntl.h>
#include <libgen.h>
#include <stdio.h>
#include <stdlib.h>
#include <string.h>
#include <unistd.h>

#define BLOCK 512 /* the disk is taken to write so many bytes, from a multiple of it on, wholly or not at all */

static int file;
static uint8_t journal[SLIP_ROOMY + 1]; /* one byte more, to see that a file is too long */
static uint64_t table[SLIP_TABLE];
static uint8_t said[SLIP_AGAIN]; /* at waking: what is to be said again */
static struct slip_kiosk kiosk;

static void stop(const char *what, const char *why)
{
    fprintf(stderr, "loop: %s: %s\n", what, why);
    exit(1);
}

/* All the bytes that the file has, not a remembered length. */
static size_t read_all(void)
{
    size_t count = 0;
    ssize_t got;
    while ((got = pread(file, journal + count, sizeof journal - count, (off_t)count)) > 0)
        count += (size_t)got;
    if (got < 0)
        stop("reading the journal", strerror(errno));
    return count;
}

/* The journal's bytes onto the disk in byte order: a block is durable before the next is begun. */
static int make_durable(size_t from, size_t to)
{
    while (from < to) {
        size_t part = BLOCK - from % BLOCK;
        if (part > to - from)
            part = to - from;
        if (pwrite(file, journal + from, part, (off_t)from) != (ssize_t)part || fsync(file) != 0)
            return -1;
        from += part;
    }
    return 0;
}

static void cut_file(size_t length)
{
    if (ftruncate(file, (off_t)length) != 0 || fsync(file) != 0)
        stop("cutting the journal", strerror(errno));
}

/* Opens, and cuts the file where its whole groups end, so that these are durable, also the last of a run that was killed. A file that does
 * not open is not touched. */
static uint32_t wake(void)
{
    struct slip_reply reply = slip_again(journal, SLIP_ROOMY, read_all(), table, SLIP_TABLE, said, sizeof said);
    if (reply.number == SLIP_ACCEPTED)
        cut_file(reply.kiosk.used);
    else
        fprintf(stderr, "loop: refused %u at %zu\n", (unsigned)reply.number, reply.place);
    kiosk = reply.kiosk;
    return reply.number;
}

/* Once a height, and again after 13: nothing was ever sent then. */
static void create(const uint16_t *powers, size_t kiosks, size_t own, uint32_t height)
{
    struct slip_made made = slip_create(powers, kiosks, own, height, journal, SLIP_ROOMY);
    if (made.number != SLIP_ACCEPTED)
        stop("creating the journal", "the roll or the own number is refused");
    if (make_durable(0, made.used) != 0)
        stop("creating the journal", "not written");
    printf("created %zu\n", made.used);
}

/* The file's name outlasts a power cut once its folder is durable. */
static void keep_name(char *path)
{
    int folder = open(dirname(path), O_RDONLY);
    if (folder < 0 || fsync(folder) != 0 || close(folder) != 0)
        stop("keeping the journal's name", strerror(errno));
}

/* So many outputs of 12 bytes: 1 to 3 go to the radio, 4 to 6 to the clock, 7 to the vendor. */
static void say(const uint8_t *output, unsigned count)
{
    printf("outputs %u\n", count);
    for (; count > 0; count--, output += 12) {
        uint64_t name = 0;
        for (int i = 11; i >= 4; i--)
            name = name << 8 | output[i];
        printf("%u %u %u %llu\n", output[0], output[1], output[2], (unsigned long long)name);
    }
}

/* What the last group put out. */
static void send_last(void)
{
    struct slip_part part = slip_last(kiosk, journal, SLIP_ROOMY);
    const uint8_t *group = journal + part.from;
    say(group + SLIP_GROUP(0), group[25]);
}

/* After waking: what a power cut may have kept from the air, the timers that are open, and what is settled. */
static void take_up(void)
{
    const uint8_t *timers = said + SLIP_LIST(said[0]);
    printf("awake %zu\n", kiosk.used);
    say(said + 1, said[0]);
    say(timers + 1, timers[0]);
    if (kiosk.phase == SLIP_SETTLED)
        say(journal + kiosk.used - 12, 1);
}

/* One input: put, made durable, and only then sent. */
static void take(struct slip_input input)
{
    struct slip_reply reply = slip_put(kiosk, input, table, SLIP_TABLE, journal, SLIP_ROOMY);
    if (reply.number != SLIP_ACCEPTED) {
        printf("refused %u\n", (unsigned)reply.number);
    } else if (make_durable(kiosk.used, reply.kiosk.used) != 0) {
        /* Nothing is sent, and the state and table of the reply are not used. */
        cut_file(kiosk.used);
        if (wake() != SLIP_ACCEPTED)
            stop("opening again", "the journal is not as it was written");
        printf("not written\n");
    } else {
        kiosk = reply.kiosk;
        send_last();
    }
}

static uint64_t number(const char *text, char **end, uint64_t most)
{
    errno = 0;
    unsigned long long value = strtoull(text, end, 10);
    if (*end == text || errno != 0 || value > most)
        stop("no such number", text);
    return value;
}

/* A line into an input; 0 at the end. */
static int hear(struct slip_input *input)
{
    char line[256], *at = line;
    if (fgets(line, sizeof line, stdin) == NULL)
        return 0;
    input->kind = (uint8_t)number(at, &at, UINT8_MAX);
    input->sender = (uint8_t)number(at, &at, UINT8_MAX);
    input->round = (uint8_t)number(at, &at, UINT8_MAX);
    input->valid = (uint8_t)number(at, &at, UINT8_MAX);
    input->verdict = (uint8_t)number(at, &at, UINT8_MAX);
    input->name = number(at, &at, UINT64_MAX);
    return 1;
}

int main(int argc, char **argv)
{
    if (argc < 6 || argc > 5 + SLIP_KIOSKS) {
        fprintf(stderr, "usage: loop FILE OWN HEIGHT OFFER POWER...\n");
        return 2;
    }
    char *end;
    size_t own = number(argv[2], &end, UINT8_MAX), kiosks = (size_t)argc - 5;
    uint32_t height = (uint32_t)number(argv[3], &end, UINT32_MAX);
    uint64_t offer = number(argv[4], &end, UINT64_MAX);
    uint16_t powers[SLIP_KIOSKS] = {0};
    for (size_t i = 0; i < kiosks; i++)
        powers[i] = (uint16_t)number(argv[5 + i], &end, UINT16_MAX);

    file = open(argv[1], O_RDWR | O_CREAT, 0600);
    if (file < 0 || lockf(file, F_TLOCK, 0) != 0)
        stop(argv[1], strerror(errno));
    keep_name(argv[1]);
    uint32_t answer = wake();
    if (answer == SLIP_HEADER_SHORT) {
        create(powers, kiosks, own, height);
        answer = wake();
    }
    if (answer != SLIP_ACCEPTED)
        stop("the journal is kept as it is", "this kiosk says nothing more in this height");
    if (kiosk.height != height || kiosk.own != own || kiosk.kiosks != kiosks || memcmp(kiosk.powers, powers, sizeof powers) != 0)
        stop("the journal is of another kiosk", "roll, own number or height differ");

    take_up();
    struct slip_input input;
    while (fflush(stdout) == 0 && hear(&input)) {
        input.height = height;
        input.offer = offer; /* what this kiosk would propose now: a board asks its sales before every input */
        take(input);
    }
    if (ferror(stdout))
        stop("sending", "not printed");
    return 0;
}
