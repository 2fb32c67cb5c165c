/*
 * Slipcoacher: the engine of one kiosk, one height, one journal, for firmware to link (libboard.a). 01 is the request that it keeps.
 * example.c is the shortest program that uses it, loop.c the whole loop on a real file.
 *
 * WHO OWNS WHAT. The caller owns every byte. The library keeps nothing between calls: no heap, no data that changes, no thread, no clock.
 * A lent area is a pointer and a length; the pointer is never null, not even with length 0, and areas do not overlap.
 *   journal  the bytes of the log partition. Creating writes its header, putting one group at the used length; opening only reads.
 *   table    SLIP_TABLE numbers beside the state. Opening fills it, putting changes it; keep it with the state.
 *   said     SLIP_AGAIN bytes, for what slip_again lays there.
 *   kiosk    the state. It goes in by value and comes back in the reply; the next call takes the one of the last reply.
 *
 * THE CALLER'S DUTIES. Two kiosks that keep them never settle a height with different sheets (proved: one-sheet-sent), if such kiosks
 * hold more than two thirds of the power. In brackets: markets, computed, in which two do, since that is not kept (Premises.antt).
 *  1. Create the journal once, and again only after 13, where nothing but power cuts in writing it has touched the journal: with the same
 *     roll and height, and the same own number. One journal a height. [two-journals, own-roll]
 *  2. Open exactly the used bytes; after a power cut all the bytes that the cut left: as long as the file is, not a length that was
 *     remembered. Go on with what opening gives, never from a fresh state. [old-bytes, afresh]
 *  3. Cut the file at the used length of the reply (kiosk.used) before the next put. What stands behind it is the first part of a group
 *     that was never whole; left there, it may be read as damage behind the next group, or in it. Make the file durable then, also where
 *     nothing is cut: a program that was killed may have left a whole group that is not on the disk yet.
 *  4. Put each input with the state, table and journal that opening or the last call left, unchanged. [stale]
 *  5. When putting returns 0 the group stands in the lent journal (proved: accepted-written); slip_last says where. Make its bytes durable
 *     in byte order, so that a power cut leaves the old used bytes and any first part of the group. [old-bytes]
 *  6. Only then send the reply's outputs, now, later or again. Send nothing else under the own number for that height. [early]
 *  7. Put under a sender's number only what this sender sent, for that height: signatures are checked before. [forged]
 *  8. Set the offer of every input, timers too: a call may enter a round that is this kiosk's to propose in. 0 is no sheet: the kiosk then
 *     asks for the propose timer. (No duty of one-sheet-sent: any offer is safe.)
 *
 * WHEN THE DURABLE WRITE FAILS the state and the table of the reply are not used, and nothing of it is sent. Cut the file at the used length
 * that the state had before the call, make that durable, and open again. Where the cut fails too, stop: nothing is known of the disk then,
 * and the next start opens what is there. As long as the old used bytes stand, and behind them a first part of the group or nothing, it is
 * as after a power cut in the write: the steps write-cut and wake of one-sheet-sent.
 *
 * AFTER 13 the header is not whole. Where nothing but power cuts in writing it has touched the journal nothing was ever sent (proved:
 * opens-whole), and it is created again (1). AFTER 14 something else has touched it; 01 gives this kiosk no way on in that height: keep the
 * bytes, send nothing, do not create again. Power cuts alone never lead to 14 (proved: opens-whole).
 *
 * ERASED FLASH. Opening reads every byte it is given. A byte 0xFF where a group may start is damage there: 14, and 14 at 0 where nothing is
 * written yet. So erased bytes are left out; but a whole group can end in 0xFF too, in up to eight of them, the bytes of a name. No group
 * starts with one. Let L be the place after the last byte that is not 0xFF, 0 where there is none.
 *   Open with L. Refused, or with kiosk.used equal to L: this is the reply.
 *   Else open with L + 1, .. L + 8, within the area: one whose kiosk.used is the length given is the reply.
 *   If none is, open with L once more: this is the reply.
 * It is the reply to all the bytes that the cut left, with those 0xFF of the same group that were still to be written, which stand there.
 * Without the second step a whole group that was sent can be lost. 13 stays 13 where a whole header ends in 0xFF, those of its height: no
 * group follows it then, and creating again writes the same bytes. (Tested at every cut: second/board/tests/erased.rs.)
 * Flash cannot cut as a file does: where bytes stand behind kiosk.used, move the used bytes to erased flash before the next put, so that
 * at each moment one whole copy is durable and is the one that is opened. A cell that a cut left half written is outside 01's power cuts.
 *
 * AFTER WAKING open by slip_again, do duty 3, and only then say it again: what is read may be a whole group that a killed program left, and
 * that is not on the disk yet. slip_again opens as slip_open does and lays two lists at the start of `said`, each a count k (1 byte) and k
 * outputs as groups have them: SLIP_LIST(k) bytes. It votes nothing and does not touch the journal.
 *   first    the proposals, prevotes and precommits of the whole groups that are of the current round or the one before, in their order.
 *            Send them: the cut may have come before they were sent. A kiosk that heard one already refuses it with 8.
 *   second   behind it, the timers that are open, by kind, as outputs 4 to 6 of the current round: those whose input would be accepted now.
 *            Start them.
 * A settled kiosk has no open timer; that it settled, and what, is the last output of its last group. No promise needs any of this, but
 * what nobody hears settles nothing, and a kiosk that waits for a timer that nobody runs may wait for ever.
 *
 * REFUSALS. Every number may be written into any field: a call never traps. A refused call returns its number, changes no byte and no
 * number that was lent, has no output, and returns the state that it was given (proved of putting: refused-changes-nothing). Opening
 * differs: refused, it returns the unopened state, and after 13 and 14 the table is all 0. So does slip_again; its 12, for lists that do not
 * fit, returns the opened state, with the table as opening left it. After each of its refusals `said` is unchanged.
 * Refusal 5 is given for a kind that is not 1 to 7, a sender that is not on the roll, a round over 15, and for a field outside these rules:
 *   start      sender, round, name, valid, verdict 0
 *   timers     sender, name, valid, verdict 0
 *   votes      valid, verdict 0; name 0 is nil
 *   proposal   name not 0; valid 0 to its round; verdict 0 or 1
 *
 * THE JOURNAL'S BYTES, little-endian (Layout.antt):
 *   header, SLIP_HEADER(n) bytes: n (1); n powers (2 each); 5 (1); own number (1); height (4)
 *   then a group for each accepted call, SLIP_GROUP(k) bytes:
 *     place  0  24             place  1  kind of the input    place  2  sender    place  3  round    place  4  valid round plus one
 *     place  5  verdict        place  6  three zeros          place  9  name (8)  place 17  offer (8)
 *     place 25  k, 0 to 6, and from place 26 on k outputs of 12: kind, round, valid round plus one, zero, name (8)
 * Fields that an output does not carry are 0: 1, 2, 3 and 7 carry a name, only 1 a valid round.
 *
 * WHAT IT NEEDS. An x86-64 processor (the code uses the SSE2 registers) and the System V calling convention, with a stack aligned to 16
 * bytes at each call and its red zone: no interrupt writes into the 128 bytes below the stack pointer. Two functions of C, memcpy and memset,
 * and nothing else. Alignment: table and structs 8 bytes, powers 2, journal, said and text any. Stack: the SLIP_STACK numbers below.
 */
#ifndef SLIPCOACHER_H
#define SLIPCOACHER_H

#include <stddef.h>
#include <stdint.h>

#ifdef __cplusplus
extern "C" {
#endif

#define SLIP_VERSION "1.1" /* of this interface: the first number changes where a program must */
#define SLIP_RULES 1       /* of the rules and the journal's bytes: document 01 */

#define SLIP_KIOSKS 32    /* the most kiosks of a roll */
#define SLIP_ROUNDS 16    /* rounds 0 to 15 */
#define SLIP_TABLE 1040   /* the numbers of the table */
#define SLIP_SENT 6       /* the most outputs of a call (proved: accepted-six) */
#define SLIP_TEXT 114196  /* the text room that every listing fits (proved: listing-fits) */
#define SLIP_AGAIN 98     /* the room for what is said again that always does (proved: room-enough) */

/* Bytes of the journal, by n kiosks or k outputs, and of a list of k outputs; and the most of each. */
#define SLIP_HEADER(n) (7 + 2 * (n))
#define SLIP_GROUP(k) (26 + 12 * (k))
#define SLIP_LIST(k) (1 + 12 * (k))
#define SLIP_MOST_HEADER SLIP_HEADER(SLIP_KIOSKS) /* 71 */
#define SLIP_MOST_GROUP SLIP_GROUP(SLIP_SENT)     /* 98 */

/* An area in which no call of n kiosks is refused for room, with a state that opening, or accepted calls from there, gave (proved:
 * put-answers); of a made-up state nothing is said. A smaller area may be lent too: then a call may be answered with 12. */
#define SLIP_ROOMY_FOR(n) (1811 + 834 * (n))
#define SLIP_ROOMY 28499 /* for 32 kiosks; also the most bytes that slip_list lists */

/* Stack bytes that a call takes below its caller, its arguments by value among them: measured, with six rules fired in one call, and measured
 * again by `make board`. A memcpy or memset that takes over 128 bytes comes on top. */
#define SLIP_STACK_CREATE 512
#define SLIP_STACK_OPEN 5424
#define SLIP_STACK_AGAIN 7728
#define SLIP_STACK_PUT 4800
#define SLIP_STACK_LAST 512
#define SLIP_STACK_LIST 13456

/* What a call answers. */
enum slip_number {
    SLIP_ACCEPTED = 0,
    SLIP_IMPOSSIBLE = 1,       /* state, table or used length impossible */
    SLIP_ALREADY_SETTLED = 2,
    SLIP_OUT_OF_ORDER = 3,     /* not started and no start, or a second start */
    SLIP_OTHER_HEIGHT = 4,
    SLIP_BAD_FIELD = 5,
    SLIP_OWN_NUMBER = 6,       /* a message from the own seat */
    SLIP_NOT_PROPOSER = 7,
    SLIP_HEARD_SAME = 8,
    SLIP_HEARD_OTHER = 9,
    SLIP_TIMER_NOT_DUE = 10,
    SLIP_LAST_ROUND = 11,
    SLIP_NO_ROOM = 12,         /* the group, header, text or lists do not fit */
    SLIP_HEADER_SHORT = 13,
    SLIP_DAMAGED = 14,         /* the reply's place says where */
    SLIP_BAD_ROLL = 15
};

enum slip_phase { SLIP_FRESH = 0, SLIP_RUNNING = 1, SLIP_SETTLED = 2 };
enum slip_step { SLIP_PROPOSE = 0, SLIP_PREVOTE = 1, SLIP_PRECOMMIT = 2 };

/* None heard; one with verdict 0; one with verdict 1, which every greater number says too. */
enum slip_proposal { SLIP_PROPOSAL_NONE = 0, SLIP_PROPOSAL_BAD = 1, SLIP_PROPOSAL_GOOD = 2 };

/* The numbers that the log has of a round: bit i is set where the prevote, or the precommit, of seat i is heard; slip_proposal; the
 * proposal's valid round plus one. */
enum slip_heard { SLIP_PREVOTES = 0, SLIP_PRECOMMITS = 1, SLIP_THE_PROPOSAL = 2, SLIP_VALID = 3 };

enum slip_input_kind {
    SLIP_IN_START = 1, SLIP_IN_PROPOSAL = 2, SLIP_IN_PREVOTE = 3, SLIP_IN_PRECOMMIT = 4,
    SLIP_IN_TIMER_PROPOSE = 5, SLIP_IN_TIMER_PREVOTE = 6, SLIP_IN_TIMER_PRECOMMIT = 7
};

enum slip_output_kind {
    SLIP_OUT_PROPOSAL = 1, SLIP_OUT_PREVOTE = 2, SLIP_OUT_PRECOMMIT = 3,
    SLIP_OUT_ASK_PROPOSE = 4, SLIP_OUT_ASK_PREVOTE = 5, SLIP_OUT_ASK_PRECOMMIT = 6, SLIP_OUT_SETTLED = 7
};

/* The state of a kiosk. Zeros are the unopened state. */
struct slip_kiosk {
    size_t kiosks;          /* how many are on the roll; 0: unopened */
    size_t own;             /* the own seat */
    size_t used;            /* the journal's used length */
    size_t last;            /* where its last whole group starts; the used length when there is none */
    uint64_t locked_name;   /* the locked sheet, 0: none */
    uint64_t valid_name;    /* the valid sheet, 0: none */
    uint32_t height;
    uint16_t powers[SLIP_KIOSKS];
    uint8_t phase;          /* slip_phase; another is refusal 1 */
    uint8_t settled;        /* the round of the settled sheet; 0 unless settled, or refusal 1 */
    uint8_t round;
    uint8_t step;           /* slip_step; another is refusal 1 */
    uint8_t asked_propose;  /* 1: the timer was asked for in this round; over 1 is refusal 1, as in every field of 0 or 1 */
    uint8_t asked_prevote;
    uint8_t asked_precommit;
    uint8_t backed;         /* 1: a sheet was backed in this round */
    uint8_t locked_next;    /* the locked sheet's round plus one, 0: none */
    uint8_t valid_next;     /* the valid sheet's round plus one, 0: none */
    /* The log: what is heard of each round, names aside (the table has those). */
    uint32_t log[SLIP_ROUNDS][4]; /* of each round those of slip_heard */
};

struct slip_input {
    uint64_t name;    /* the sheet's name, 0 for nil */
    uint64_t offer;   /* the sheet that this kiosk would propose now, 0 for none */
    uint32_t height;
    uint8_t kind;     /* slip_input_kind */
    uint8_t sender;   /* a seat */
    uint8_t round;
    uint8_t valid;    /* a proposal's valid round plus one */
    uint8_t verdict;  /* of a proposal: 1 good, 0 bad */
};

struct slip_output {
    uint64_t name;
    uint8_t kind;     /* slip_output_kind */
    uint8_t round;
    uint8_t valid;    /* a proposal's valid round plus one */
};

struct slip_reply {
    uint32_t number;                     /* slip_number */
    size_t place;                        /* of SLIP_DAMAGED, else 0 */
    size_t count;                        /* how many outputs to send, in order; the rest of sent is zeros */
    struct slip_output sent[SLIP_SENT];
    struct slip_kiosk kiosk;             /* the next state */
};

struct slip_made {
    uint32_t number;
    size_t used;      /* the used length; 0 when refused */
};

/* A part of the lent journal. */
struct slip_part {
    size_t from;
    size_t count;
};

struct slip_page {
    uint32_t number;  /* 0, or SLIP_NO_ROOM for a text area below SLIP_TEXT */
    size_t size;      /* the bytes of text */
};

/* A journal with this roll, own seat and height, in the lent area. */
struct slip_made slip_create(const uint16_t *powers, size_t kiosks, size_t own, uint32_t height, uint8_t *journal, size_t area);

/* The kiosk whose journal the first `used` bytes of the area are. An unfinished group at the end is dropped: the reply's kiosk.used
 * stops before it. After 13 and 14 the table is all 0, after 1 it is untouched. */
struct slip_reply slip_open(const uint8_t *journal, size_t area, size_t used, uint64_t *table, size_t places);

/* As slip_open, with what is to be said again at the start of `said`, where other bytes stay: the two lists of AFTER WAKING. */
struct slip_reply slip_again(const uint8_t *journal, size_t area, size_t used, uint64_t *table, size_t places, uint8_t *said, size_t room);

/* One input. */
struct slip_reply slip_put(struct slip_kiosk kiosk, struct slip_input input, uint64_t *table, size_t places, uint8_t *journal, size_t area);

/* The last whole group, as a part of the lent journal; empty (0, 0) when none fits. */
struct slip_part slip_last(struct slip_kiosk kiosk, const uint8_t *journal, size_t area);

/* The listing of a journal's bytes, written at the start of the text area. */
struct slip_page slip_list(const uint8_t *journal, size_t count, uint8_t *text, size_t room);

/* For a caller to see that its compiler lays the fields as the library does. Fields are numbered from 0 in the order of the structs
 * above; a field that is an array takes an index too, which is not looked at for the others. The log's is four times the round plus
 * slip_heard. */
enum slip_kiosk_field {
    SLIP_F_KIOSKS, SLIP_F_OWN, SLIP_F_USED, SLIP_F_LAST, SLIP_F_LOCKED_NAME, SLIP_F_VALID_NAME, SLIP_F_HEIGHT, SLIP_F_POWERS,
    SLIP_F_PHASE, SLIP_F_SETTLED, SLIP_F_ROUND, SLIP_F_STEP, SLIP_F_ASKED_PROPOSE, SLIP_F_ASKED_PREVOTE, SLIP_F_ASKED_PRECOMMIT,
    SLIP_F_BACKED, SLIP_F_LOCKED_NEXT, SLIP_F_VALID_NEXT,
    SLIP_F_LOG
};

/* The number in a field; 0 for a field or an index that there is not. */
uint64_t slip_kiosk_number(struct slip_kiosk kiosk, size_t field, size_t index);

/* The same of an input: 0 name, 1 offer, 2 height, 3 kind, 4 sender, 5 round, 6 valid, 7 verdict. */
uint64_t slip_input_number(struct slip_input input, size_t field);

/* A reply with `first` as its number, first + 1 as its place, first + 2 as its count; output i has name first + 4i + 3, kind first +
 * 4i + 4, round first + 4i + 5 and valid first + 4i + 6; the state is the one given. `first` over 200 counts as 200. */
struct slip_reply slip_layout(struct slip_kiosk kiosk, uint8_t first);

#ifdef __cplusplus
}
#endif

#endif
