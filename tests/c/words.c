/* What include/station.h says of its arguments and answers. A board of length 0 may have any pointer, NULL too, and every
 * function refuses it; a timer likewise. A priority above 127 is as 127: install refuses it, and a message goes with its sender's
 * own or not at all. A broken rule comes with its record, and every rule and every refusal has words of its own. Byte 1 names the
 * running task, and an old board is converted once. A message on a timer comes back at its tick, and nothing stops it. */
#include <stdio.h>
#include <string.h>

#include "station.h"

static uint8_t board[STATION_BYTES], timer[STATION_TIMER_BYTES];
static int faults;

static void hold(int holds, const char *words)
{
    if (!holds) printf("station.h: %s\n", words);
    faults += !holds;
}

/* start and tick on the board, with a timer of so many bytes */
static uint8_t start(uint8_t *bytes, size_t len, uint16_t m, uint16_t delay)
{
    return station_start_timer(board, sizeof board, bytes, len, m, delay).refusal;
}

static station_answer tick(uint8_t *bytes, size_t len)
{
    return station_pass_tick(board, sizeof board, bytes, len);
}

static void no_bytes(void)
{
    hold(station_make_fresh(NULL, 0).refusal == STATION_WRONG_LENGTH, "make_fresh takes a board of no bytes");
    hold(station_look(NULL, 0).refusal == STATION_WRONG_LENGTH, "look takes a board of no bytes");
    hold(station_convert_old(NULL, 0).refusal == STATION_WRONG_LENGTH, "convert_old takes a board of no bytes");
    hold(station_start_timer(NULL, 0, NULL, 0, 1, 1).refusal == STATION_WRONG_LENGTH, "start_timer takes a board of no bytes");
    hold(station_pass_tick(NULL, 0, NULL, 0).refusal == STATION_WRONG_LENGTH, "pass_tick takes a board of no bytes");
    hold(start(NULL, 0, 1, 1) == STATION_BAD_TIMER, "start_timer takes a timer of no bytes");
    hold(tick(NULL, 0).refusal == STATION_BAD_TIMER, "pass_tick takes a timer of no bytes");
    for (unsigned kind = 0; kind <= UINT8_MAX; kind++) {
        uint8_t refusal = station_ask(NULL, 0, (uint8_t)kind, 1, 1, 1, STATION_TCBB, 3).refusal;
        hold(refusal == (kind >= 1 && kind <= 19 ? STATION_WRONG_LENGTH : STATION_NO_CALL), "a call takes a board of no bytes");
    }
}

static void prio_bytes(void)
{
    static const unsigned beyond[] = {128, 200, 255, 256, 300, 65536, (unsigned)-1};
    for (unsigned priority = 0; priority <= STATION_SENDERS_OWN; priority++)
        hold(station_lifo(priority) == 2 * priority && station_fifo(priority) == 2 * priority + 1,
             "a PRIO byte has another priority");
    for (size_t i = 0; i < sizeof beyond / sizeof *beyond; i++)
        hold(station_lifo(beyond[i]) == 0xFE && station_fifo(beyond[i]) == 0xFF, "a priority above 127 is not as 127");
}

static void priority_above_127(void)
{
    memset(board, 0, sizeof board);
    hold(station_install(board, sizeof board, 1, STATION_TCBB, station_fifo(128), 0, 0).refusal == STATION_BAD_PRIORITY,
         "install takes a priority above 127");
    station_install(board, sizeof board, 1, STATION_TCBB, station_fifo(5), 0, 0);
    uint16_t m = station_claim(board, sizeof board).value;
    station_prepare(board, sizeof board, m, 0, station_fifo(128), 1);
    hold(station_return(board, sizeof board, m).refusal == STATION_BAD_PRIORITY,
         "a message with a priority above 127 is returned");
    hold(station_send(board, sizeof board, m, 1).refusal == STATION_ACCEPTED && board[325] == station_fifo(5),
         "a message with a priority above 127 is not sent with its sender's own");
}

static int is(station_answer a, station_answer b)
{
    return a.refusal == b.refusal && a.value == b.value && a.running == b.running && a.delivered == b.delivered &&
           a.rule == b.rule && a.record == b.record;
}

static station_answer broken(uint8_t rule, uint8_t record)
{
    return (station_answer){STATION_RULE_BROKEN, 0, 0, 0, rule, record};
}

static void packed_answers(void)
{
    hold(is(station_unpack(0x0005060304010200), (station_answer){STATION_ACCEPTED, 0x0102, 0x0304, 0x0506, 0, 0}),
         "an accepted answer is not unpacked");
    hold(is(station_unpack(0x800402), broken(4, 128)), "a broken rule is not unpacked with its record");
    hold(is(station_unpack(5), (station_answer){STATION_NOT_HELD, 0, 0, 0, 0, 0}), "another refusal is not unpacked");
}

static void broken_rules(void)
{
    memset(board, 0, sizeof board);
    board[4 + 10 * (STATION_TASKS - 1)] = STATION_WAIT;
    hold(is(station_look(board, sizeof board), broken(2, STATION_TASKS)), "the check does not name the task");
    hold(is(station_claim(board, sizeof board), broken(2, STATION_TASKS)), "a call does not name the task");
    hold(is(station_convert_old(board, sizeof board), broken(2, STATION_TASKS)), "the conversion does not name the task");
    board[3] = 1;
    hold(is(station_look(board, sizeof board), broken(1, 0)), "the check does not name the lowest rule");
    hold(station_make_fresh(board, sizeof board).rule == 0, "making a board fresh names a rule");
}

/* byte 1 names the running task; any other byte is told as it is */
static void who_runs(void)
{
    memset(board, 0, sizeof board);
    for (uint16_t k = 1; k <= 2; k++) station_install(board, sizeof board, k, STATION_TCBB, station_fifo(5), 0, 0);
    hold(station_wait_for_interrupt(board, sizeof board).running == 2 && board[1] == 2, "who runs is not told in byte 1");
    hold(station_post_interrupt(board, sizeof board, 1).running == 2, "an equal pushes the running task aside");
    for (unsigned byte = 3; byte <= UINT8_MAX; byte++) {
        board[1] = (uint8_t)byte;
        hold(is(station_look(board, sizeof board), broken(7, (uint8_t)byte)), "the check does not name a wrong byte 1");
    }
}

static void old_board(void)
{
    station_answer first = {STATION_ACCEPTED, 0, 1, 0, 0, 0};
    board[1] = 0; /* the two tasks of before, ready both, as they were saved once */
    hold(is(station_look(board, sizeof board), broken(7, 0)), "an old board passes");
    hold(is(station_convert_old(board, sizeof board), first) && board[1] == 1, "an old board is not converted");
    hold(is(station_look(board, sizeof board), first), "a converted board does not pass");
    hold(is(station_convert_old(board, sizeof board), broken(1, 0)), "a board is converted twice");
}

/* a fresh board, a timer of zeros, a lone task, and message 1 of it, which names it as sender */
static void make_timed(void)
{
    station_make_fresh(board, sizeof board);
    memset(timer, 0, sizeof timer);
    station_install(board, sizeof board, 1, STATION_TCBB, station_fifo(5), 0, 0);
    uint16_t m = station_claim(board, sizeof board).value;
    station_prepare(board, sizeof board, m, 0, station_fifo(9), 1);
}

/* now, the entry of three bytes, and place 128; the count runs on past 65,535 */
static void timer_bytes(void)
{
    static const uint8_t started[] = {0xFE, 0xFF, 1, 2, 0, 0}, ticked[] = {0xFF, 0xFF, 1, 2, 0, 0}, later[] = {2, 0, 0, 0, 0, 0};
    station_answer goes_on = {STATION_ACCEPTED, 0, 1, 0, 0, 0}, waits = {STATION_ACCEPTED, 0, 0, 0, 0, 0};
    station_answer handed = {STATION_ACCEPTED, 0, 1, 1, 0, 0};
    make_timed();
    memcpy(timer, started, 2);
    hold(is(station_start_timer(board, sizeof board, timer, sizeof timer, 1, 4), goes_on), "start is not accepted");
    hold(memcmp(timer, started, sizeof started) == 0 && board[1348] == 128, "start leaves other bytes");
    hold(is(tick(timer, sizeof timer), goes_on) && memcmp(timer, ticked, sizeof ticked) == 0, "a tick leaves other bytes");
    hold(is(station_receive_and_wait(board, sizeof board), waits), "a message on the timer is received");
    for (int i = 0; i < 2; i++) hold(is(tick(timer, sizeof timer), waits), "a message comes back too early");
    hold(is(tick(timer, sizeof timer), handed) && memcmp(timer, later, sizeof later) == 0 && board[1348] == 1,
         "a message does not come back at its tick");
}

/* what start refuses, and BAD_TIMER before it */
static void refused_starts(void)
{
    uint8_t longer[STATION_TIMER_BYTES + 1] = {0};
    make_timed();
    hold(start(timer, sizeof timer, 1, 0) == STATION_NO_DELAY, "a delay of 0 is taken");
    hold(start(timer, sizeof timer - 1, 1, 0) == STATION_BAD_TIMER, "a timer of 49 bytes is taken");
    hold(start(longer, sizeof longer, 1, 0) == STATION_BAD_TIMER, "a timer of 51 bytes is taken");
    for (uint16_t i = 1; i <= STATION_TIMERS; i++) {
        hold(start(timer, sizeof timer, i, UINT16_MAX) == STATION_ACCEPTED, "a timer is not free");
        uint16_t m = station_claim(board, sizeof board).value;
        station_prepare(board, sizeof board, m, 0, station_fifo(9), 1);
    }
    hold(start(timer, sizeof timer, STATION_TIMERS + 1, UINT16_MAX) == STATION_NO_TIMER_FREE, "there is a timer beyond sixteen");
    station_make_fresh(board, sizeof board);
    hold(timer[2] == 1 && tick(timer, sizeof timer).refusal == STATION_BAD_TIMER, "a fresh board goes with a used timer");
    hold(start(timer, sizeof timer, 1, 1) == STATION_BAD_TIMER, "start tells who runs before the timer");
    memset(timer, 0, sizeof timer);
    hold(start(timer, sizeof timer, 1, 1) == STATION_NOBODY_RUNS && tick(timer, sizeof timer).refusal == STATION_ACCEPTED,
         "a fresh board does not go with a timer of zeros");
}

static void nothing_stops_a_timer(void)
{
    make_timed();
    start(timer, sizeof timer, 1, 1);
    hold(start(timer, sizeof timer, 1, 1) == STATION_NOT_HELD, "a message on the timer is started again");
    hold(station_release(board, sizeof board, 1).refusal == STATION_NOT_HELD, "a message on the timer is released");
    hold(station_cancel_message(board, sizeof board, 1, 1).refusal == STATION_NOT_QUEUED, "a message on the timer is cancelled");
    hold(station_cancel_task(board, sizeof board, 1).refusal == STATION_TASK_BUSY, "a task that a timer returns to is cancelled");
    board[325] = station_fifo(STATION_SENDERS_OWN);
    hold(is(station_look(board, sizeof board), broken(4, 1)), "a message of priority 127 is on the timer");
    hold(is(tick(NULL, 0), broken(4, 1)), "a wrong timer is told before a broken rule");
}

static void words_of_refusals(void)
{
    const char *none = station_reason(STATION_BAD_TIMER + 1);
    for (uint8_t refusal = 0; refusal <= STATION_BAD_TIMER; refusal++) {
        hold(strcmp(station_reason(refusal), none) != 0, "a refusal has no words");
        for (uint8_t other = 0; other < refusal; other++)
            hold(strcmp(station_reason(refusal), station_reason(other)) != 0, "two refusals have the same words");
    }
    hold(strcmp(station_reason(STATION_NO_CALL), none) != 0, "what is no call has no words");
}

static void words_of_rules(void)
{
    for (uint8_t rule = 1; rule <= 7; rule++)
        for (uint8_t other = 0; other < rule; other++)
            hold(strcmp(station_rule(rule), station_rule(other)) != 0, "two rules have the same words");
    hold(strcmp(station_rule(0), station_rule(8)) == 0, "a number that is no rule has words of its own");
}

int main(void)
{
    no_bytes();
    prio_bytes();
    priority_above_127();
    packed_answers();
    broken_rules();
    who_runs();
    old_board();
    timer_bytes();
    refused_starts();
    nothing_stops_a_timer();
    words_of_refusals();
    words_of_rules();
    if (!faults) puts("station.h: what it says of its arguments and answers holds");
    return faults != 0;
}
