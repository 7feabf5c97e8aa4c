/* The station's board: tasks, message blocks and queues in 1,476 bytes that the caller lends. Byte 0 of them names the first task
 * of the task queue, and byte 1 the running task, 0 if none. Beside it, for messages that come back later, the station timer: 50
 * bytes more. For C11 and C++.
 *
 * Link with target/staticlib/libstation.a, which `tests/libraries` writes; of the C library it needs memset alone. No
 * function keeps anything between calls, allocates, or touches a byte outside the lent ones. A pointer must have as many bytes
 * behind it as its length says; with length 0 it may be any, NULL too. The board and the timer of one call do not overlap. All
 * else is safe to hand over, any bytes and any arguments: what cannot be done is refused with a number and changes nothing. One
 * writer at a time is the caller's business.
 *
 * Tasks are numbered 1 to 32 and messages 1 to 128; 0 is none. Names in capitals (STAT, PRIO, RPTR ..) are the fields of the
 * MITE-80 manual, 3.2 and 3.3. Small programs with all this: examples/c/shore_station.c, and examples/c/watchdog.c for the
 * timer. */
#ifndef STATION_H
#define STATION_H

#include <stddef.h>
#include <stdint.h>

#define STATION_BYTES 1476 /* of a board */
#define STATION_TASKS 32
#define STATION_MESSAGES 128
#define STATION_TIMER_BYTES 50 /* of the timer buffer */
#define STATION_TIMERS 16

#ifdef __cplusplus
extern "C" {
#endif

/* ---- what is linked: packed answers, for use through the wrappers below */
uint64_t station_fresh(uint8_t *board, size_t len);
uint64_t station_check(const uint8_t *board, size_t len);
uint64_t station_convert(uint8_t *board, size_t len);
uint64_t station_call(uint8_t *board, size_t len, uint8_t kind, uint16_t a, uint16_t b, uint16_t c, uint8_t stat, uint8_t prio);
uint64_t station_start(uint8_t *board, size_t len, uint8_t *timer, size_t timer_len, uint16_t m, uint16_t delay);
uint64_t station_tick(uint8_t *board, size_t len, uint8_t *timer, size_t timer_len);

/* ---- bits of a task's STAT */
enum {
    STATION_WAIT = 0x80, /* waits for a message */
    STATION_IWAT = 0x40, /* waits for an interrupt */
    STATION_INTQ = 0x10, /* an interrupt is queued */
    STATION_DEBUG = 0x08, /* left alone */
    STATION_MROB = 0x04, /* left alone */
    STATION_MHBS = 0x02, /* is due a message when it next runs */
    STATION_TCBB = 0x01 /* the record is in use */
};

/* ---- why a call was refused; the lowest that applies is given, but BAD_TIMER comes right behind RULE_BROKEN */
enum {
    STATION_ACCEPTED = 0,
    STATION_WRONG_LENGTH = 1, /* the board isn't 1,476 bytes */
    STATION_RULE_BROKEN = 2, /* such a board cannot exist; the answer tells the rule and the record */
    STATION_NOBODY_RUNS = 3, /* byte 1 is 0 */
    STATION_NO_SUCH_MESSAGE = 4,
    STATION_NOT_HELD = 5, /* the running task doesn't hold the message */
    STATION_NO_SUCH_TASK = 6,
    STATION_BAD_PRIORITY = 7, /* the message's is 127; on install PRIO is even, 01H or FFH */
    STATION_NOT_INSTALLABLE = 8, /* no such number, or in use */
    STATION_BAD_STATUS = 9, /* install takes TCBB, DEBUG and MROB alone, and needs TCBB */
    STATION_TASK_BUSY = 10, /* it holds or is sent a message, a timer will return one to it, or it waits for an interrupt */
    STATION_NONE_FREE = 11,
    STATION_NOT_QUEUED = 12, /* the message isn't in that task's queue */
    STATION_NOT_ITS_SENDER = 13,
    STATION_BAD_SENDER = 14, /* SPTR is above 32 */
    STATION_NOTHING_TO_DELIVER = 15, /* proved never to be given */
    STATION_NO_DELAY = 16, /* a delay is 1 to 65,535 ticks */
    STATION_NO_TIMER_FREE = 17, /* all sixteen are in use */
    STATION_BAD_TIMER = 18, /* the timer isn't 50 bytes, or not those that go with this board */
    STATION_NO_CALL = 255 /* station_call with a kind that is no call */
};

/* ---- an answer: refused with a number, or accepted (0) with a value, the task that runs and the message it was handed.
 * The value is what find, claim and receive give, else 0; 0 is no task and no message. With RULE_BROKEN, and else 0, come the
 * rule, 1 to 7, and the record that breaks it: the message with rule 4, the task with 2, 5 and 6, 0 with 1 and 3, and with 7
 * byte 1 as it is, which may be 0 or above 32. If several are broken, it is the lowest rule, and of its records the smallest. */
typedef struct {
    uint8_t refusal;
    uint16_t value;
    uint16_t running;
    uint16_t delivered;
    uint8_t rule;
    uint8_t record;
} station_answer;

static inline station_answer station_unpack(uint64_t word)
{
    station_answer answer = {(uint8_t)word, 0, 0, 0, 0, 0};
    if (answer.refusal == STATION_ACCEPTED) {
        answer.value = (uint16_t)(word >> 8);
        answer.running = (uint16_t)(word >> 24);
        answer.delivered = (uint16_t)(word >> 40);
    } else if (answer.refusal == STATION_RULE_BROKEN) {
        answer.rule = (uint8_t)(word >> 8);
        answer.record = (uint8_t)(word >> 16);
    }
    return answer;
}

/* a refusal in words */
static inline const char *station_reason(uint8_t refusal)
{
    switch (refusal) {
    case STATION_ACCEPTED: return "accepted";
    case STATION_WRONG_LENGTH: return "the board isn't 1,476 bytes";
    case STATION_RULE_BROKEN: return "such a board cannot exist";
    case STATION_NOBODY_RUNS: return "no task is running";
    case STATION_NO_SUCH_MESSAGE: return "there is no message of that number";
    case STATION_NOT_HELD: return "the running task doesn't hold the message";
    case STATION_NO_SUCH_TASK: return "there is no such task";
    case STATION_BAD_PRIORITY: return "the priority can't be used here";
    case STATION_NOT_INSTALLABLE: return "no task of that number, or it is in use";
    case STATION_BAD_STATUS: return "a task can't be installed with that status";
    case STATION_TASK_BUSY: return "the task has a message or is to have one from a timer, or waits for an interrupt";
    case STATION_NONE_FREE: return "no message is free";
    case STATION_NOT_QUEUED: return "the message isn't in that task's queue";
    case STATION_NOT_ITS_SENDER: return "the running task isn't the message's sender";
    case STATION_BAD_SENDER: return "the sender is no task number";
    case STATION_NOTHING_TO_DELIVER: return "there is nothing to deliver";
    case STATION_NO_DELAY: return "a delay of no ticks";
    case STATION_NO_TIMER_FREE: return "no timer is free";
    case STATION_BAD_TIMER: return "the timer isn't 50 bytes, or doesn't go with the board";
    case STATION_NO_CALL: return "no call is of that kind";
    default: return "no refusal has that number";
    }
}

/* a broken rule in words; the answer's record is the task or the message, or byte 1. An old board is one that was to be
 * converted. */
static inline const char *station_rule(uint8_t rule)
{
    switch (rule) {
    case 1: return "bytes 2 and 3 are not zero (of an old board, 1 to 3)";
    case 2: return "the record of a task is neither zero nor that of a task (STAT and PRIO)";
    case 3: return "the task queue does not visit exactly the present tasks, in order of priority";
    case 4: return "the record of a message does not go with its place";
    case 5: return "the queue of a task does not visit exactly the messages placed there, in order of priority";
    case 6: return "WAIT, IWAT, INTQ and MHBS of a task do not go together, or not with its queue";
    case 7: return "byte 1 names no task that may run (of an old board, the first ready task is due a message)";
    default: return "no rule has that number";
    }
}

/* ---- a PRIO byte: priority 0 (most urgent) to 127, and where among equals: FIFO behind them, LIFO before them. Above 127 is as
 * 127: install refuses that, and a message can only be sent with it. */
enum { STATION_SENDERS_OWN = 127 }; /* as a message's priority: send puts the sender's own there */

static inline uint8_t station_lifo(unsigned priority)
{
    return (uint8_t)(2u * (priority < 127u ? priority : 127u));
}

static inline uint8_t station_fifo(unsigned priority)
{
    return (uint8_t)(station_lifo(priority) + 1u);
}

/* ---- a board */

/* The board becomes all zeros, whatever it held: no task, every message free. Refused: WRONG_LENGTH. */
static inline station_answer station_make_fresh(uint8_t *board, size_t len)
{
    return station_unpack(station_fresh(board, len));
}

/* Can this board exist? Tells who runs, or which rule is broken and where; writes nothing. Refused: WRONG_LENGTH,
 * RULE_BROKEN. */
static inline station_answer station_look(const uint8_t *board, size_t len)
{
    return station_unpack(station_check(board, len));
}

/* Converts an old board, saved when byte 1 was zero and the first ready task in queue order ran: byte 1 names that task from now
 * on, and nothing else changes. Tells who runs. Refused: WRONG_LENGTH, and RULE_BROKEN by the rules of then: 1 was of bytes 1 to
 * 3, so a board with a running task is converted once only; 4 knew no timer; 7 was of that task, which must not be due a message,
 * and its record is its number. */
static inline station_answer station_convert_old(uint8_t *board, size_t len)
{
    return station_unpack(station_convert(board, len));
}

/* The call of that kind; the wrappers below name its arguments. Refused: NO_CALL where there is none, else as the call is. */
static inline station_answer station_ask(uint8_t *board, size_t len, uint8_t kind, uint16_t a, uint16_t b, uint16_t c,
                                         uint8_t stat, uint8_t prio)
{
    return station_unpack(station_call(board, len, kind, a, b, c, stat, prio));
}

/* ---- the nineteen calls, with their numbers in document 01 and their names in the manual, section 4.
 *
 * 'It' is the running task, which byte 1 names. Install, post and find serve anyone; the rest act for it and are refused with
 * NOBODY_RUNS where there is none. All are refused with WRONG_LENGTH and RULE_BROKEN where the board is no board, so the comments
 * below name the other refusals only. The lowest that applies is given.
 *
 * After each accepted call the answer tells the task that runs now. It is the same as before while it is there, waits for
 * nothing, and no other such task has a smaller priority number: an equal does not push it aside. Else it is the first in queue
 * order that waits for nothing. If it was due a message (MHBS), it has been handed the first of its queue, told as delivered. */

/* 1 Install (M8SN to the task queue): task k is there, behind those of equal priority. STAT is TCBB, with DEBUG and MROB as
 * one likes; PRIO is odd, 03H to FDH; SPTR and NAME are any words. Refused: BAD_PRIORITY, NOT_INSTALLABLE, BAD_STATUS. */
static inline station_answer station_install(uint8_t *board, size_t len, uint16_t k, uint8_t stat, uint8_t prio, uint16_t sptr,
                                             uint16_t name)
{
    return station_ask(board, len, 1, k, sptr, name, stat, prio);
}

/* 2 Post interrupt (M8PINT): task k goes on if it waits for an interrupt (IWAT), else one is queued for it (INTQ), and
 * never more than one. Refused: NO_SUCH_TASK. */
static inline station_answer station_post_interrupt(uint8_t *board, size_t len, uint16_t k)
{
    return station_ask(board, len, 2, k, 0, 0, 0, 0);
}

/* 3 Find (M8FIND): the value is the first task of that NAME in queue order, 0 if there is none. */
static inline station_answer station_find(uint8_t *board, size_t len, uint16_t name)
{
    return station_ask(board, len, 3, name, 0, 0, 0, 0);
}

/* 4 Cancel task (M8CAN at the task queue): task k is gone; it may be the running one. It must have no message, queued or held,
 * be SPTR of none that is on a timer, and not wait for an interrupt. Refused: NO_SUCH_TASK, TASK_BUSY. */
static inline station_answer station_cancel_task(uint8_t *board, size_t len, uint16_t k)
{
    return station_ask(board, len, 4, k, 0, 0, 0, 0);
}

/* 5 Claim: it holds the free message of the lowest number, which is the value; all its fields are 0. Refused: NONE_FREE. */
static inline station_answer station_claim(uint8_t *board, size_t len)
{
    return station_ask(board, len, 5, 0, 0, 0, 0, 0);
}

/* 6 Prepare: message m, which it holds, gets these fields. STAT is any byte, PRIO as station_fifo or station_lifo gives; SPTR
 * is the task that a return goes to, and a message from the timer; 0 for whoever sends it. Refused: NO_SUCH_MESSAGE, NOT_HELD,
 * BAD_SENDER. */
static inline station_answer station_prepare(uint8_t *board, size_t len, uint16_t m, uint8_t stat, uint8_t prio, uint16_t sptr)
{
    return station_ask(board, len, 6, m, sptr, 0, stat, prio);
}

/* 7 Release: message m, which it holds, is all zeros and free. Refused: NO_SUCH_MESSAGE, NOT_HELD. */
static inline station_answer station_release(uint8_t *board, size_t len, uint16_t m)
{
    return station_ask(board, len, 7, m, 0, 0, 0, 0);
}

/* ---- 8 to 15: message m, which it holds, goes into a task's queue by its PRIO, whose bit 0 is set then (FIFO from now on). A
 * receiver that waits for a message (WAIT) is ready again and due one (MHBS). The receiver may be the running task itself. The
 * wait forms go on as receive and wait does (17). */

/* 8, 9 Send (M8SN, M8SNW): m goes to task r. RPTR becomes r; SPTR becomes the running task if it was 0; priority 127 becomes
 * the running task's. Refused: NO_SUCH_MESSAGE, NOT_HELD, NO_SUCH_TASK. */
static inline station_answer station_send(uint8_t *board, size_t len, uint16_t m, uint16_t r)
{
    return station_ask(board, len, 8, m, r, 0, 0, 0);
}

static inline station_answer station_send_and_wait(uint8_t *board, size_t len, uint16_t m, uint16_t r)
{
    return station_ask(board, len, 9, m, r, 0, 0, 0);
}

/* 10, 11 Resend (M8RSN, M8RSNW): m goes to the task in its RPTR, the one it was last sent to. It can't have priority 127.
 * Refused: NO_SUCH_MESSAGE, NOT_HELD, NO_SUCH_TASK, BAD_PRIORITY. */
static inline station_answer station_resend(uint8_t *board, size_t len, uint16_t m)
{
    return station_ask(board, len, 10, m, 0, 0, 0, 0);
}

static inline station_answer station_resend_and_wait(uint8_t *board, size_t len, uint16_t m)
{
    return station_ask(board, len, 11, m, 0, 0, 0, 0);
}

/* 12, 13 Forward (M8FWD, M8FWDW): m goes to task r, and neither RPTR nor SPTR changes. It can't have priority 127.
 * Refused: NO_SUCH_MESSAGE, NOT_HELD, NO_SUCH_TASK, BAD_PRIORITY. */
static inline station_answer station_forward(uint8_t *board, size_t len, uint16_t m, uint16_t r)
{
    return station_ask(board, len, 12, m, r, 0, 0, 0);
}

static inline station_answer station_forward_and_wait(uint8_t *board, size_t len, uint16_t m, uint16_t r)
{
    return station_ask(board, len, 13, m, r, 0, 0, 0);
}

/* 14, 15 Return (M8RET, M8RETW): m goes to its sender, the task in its SPTR; neither RPTR nor SPTR changes. It can't have
 * priority 127. Refused: NO_SUCH_MESSAGE, NOT_HELD, NO_SUCH_TASK, BAD_PRIORITY. */
static inline station_answer station_return(uint8_t *board, size_t len, uint16_t m)
{
    return station_ask(board, len, 14, m, 0, 0, 0, 0);
}

static inline station_answer station_return_and_wait(uint8_t *board, size_t len, uint16_t m)
{
    return station_ask(board, len, 15, m, 0, 0, 0, 0);
}

/* 16 Receive (M8RCV): it holds the first message of its queue, which is the value; 0 if the queue is empty. */
static inline station_answer station_receive(uint8_t *board, size_t len)
{
    return station_ask(board, len, 16, 0, 0, 0, 0, 0);
}

/* 17 Receive and wait (M8RCVW): with a message queued, it goes on and has been handed the first; else it waits for one (WAIT) and
 * another task runs. Either way the message is told as delivered when it runs, and not as the value. */
static inline station_answer station_receive_and_wait(uint8_t *board, size_t len)
{
    return station_ask(board, len, 17, 0, 0, 0, 0, 0);
}

/* 18 Cancel message (M8CAN): message m, whose SPTR is the running task, is taken out of task r's queue, and the running task
 * holds it. If r was due a message and has none left, it waits again. Refused: NO_SUCH_MESSAGE, NO_SUCH_TASK, NOT_QUEUED,
 * NOT_ITS_SENDER. */
static inline station_answer station_cancel_message(uint8_t *board, size_t len, uint16_t m, uint16_t r)
{
    return station_ask(board, len, 18, m, r, 0, 0, 0);
}

/* 19 Wait for interrupt (M8WINT): with one queued (INTQ), that one is used up and it goes on; else it waits for one (IWAT). */
static inline station_answer station_wait_for_interrupt(uint8_t *board, size_t len)
{
    return station_ask(board, len, 19, 0, 0, 0, 0, 0);
}

/* ---- the station timer, after the manual's section 9: a message that goes back to its sender later.
 *
 * The timer is a buffer of 50 bytes beside the board: the tick that it is now, a word, and behind it sixteen entries of three
 * bytes: a message, and the tick at which it is due, a word. The low byte of a word comes first, and a free entry is three zero
 * bytes. Whoever makes the board fresh makes the timer all zeros as well: station_make_fresh does not. From then on this one
 * buffer is lent to every start and every tick and written by nobody else, and where the board is saved, it is saved too.
 *
 * A tick is 12.8 ms. Nothing here measures time: the caller makes one call of station_pass_tick every 12.8 ms, and no other call
 * lets time pass. The count runs on past 65,535 to 0.
 *
 * A message on a timer has place 128. Nobody holds it, no queue has it, and it is not free: calls that take a held message are
 * refused with NOT_HELD, and cancel message with NOT_QUEUED. So nothing stops a timer: the message comes back when it is due, and
 * its receiver looks then whether that still matters. Until then its SPTR task can't be cancelled (TASK_BUSY). By rule 4 such a
 * message has LINK 0, a present SPTR and a priority below 127; the other functions judge it by that alone, without the buffer.
 *
 * Both calls are refused with WRONG_LENGTH and RULE_BROKEN as the others are, and next, before NOBODY_RUNS and all the rest, with
 * BAD_TIMER: the buffer isn't 50 bytes, a free entry isn't zero, or the messages of place 128 are not exactly those in entries,
 * once each. A refusal changes neither the board nor the timer. The value is 0. */

/* Start: message m, which the running task holds, goes on the free timer of the lowest number and is due after so many ticks, 1
 * to 65,535 (12.8 ms to 838.8 s). The first of them may be moments away: for a time that is not to be shorter, add one. The
 * record stays as it is; SPTR must be a task that is there, and the priority can't be 127. Refused: NOBODY_RUNS,
 * NO_SUCH_MESSAGE, NOT_HELD, NO_SUCH_TASK, BAD_PRIORITY, NO_DELAY, NO_TIMER_FREE. */
static inline station_answer station_start_timer(uint8_t *board, size_t len, uint8_t *timer, size_t timer_len, uint16_t m,
                                                 uint16_t delay)
{
    return station_unpack(station_start(board, len, timer, timer_len, m, delay));
}

/* Tick: it is one tick later. Each message that is due now goes into the queue of its SPTR task, as by a return, in the order of
 * the entries, which are free then. Behind them all it is asked who runs, so what that task is handed is the first of its queue,
 * and need not be of the first entry. It serves anyone, also where nobody runs. */
static inline station_answer station_pass_tick(uint8_t *board, size_t len, uint8_t *timer, size_t timer_len)
{
    return station_unpack(station_tick(board, len, timer, timer_len));
}

#ifdef __cplusplus
}
#endif

#endif
