/* A watchdog on two gauges, with the station timer: one of them falls silent, and that raises an alarm.
 *
 * On x86-64, after `tests/libraries`:
 *     cc -Iinclude examples/c/watchdog.c target/staticlib/libstation.a -o watchdog && ./watchdog
 *
 * The watchdog has a message for each gauge and puts it on a timer. Nothing stops a timer, so a report does not either: when the
 * message is back, the watchdog looks whether its gauge has reported since, and starts the timer anew. How tasks take turns is
 * told in shore_station.c. */
#include <stdio.h>
#include <stdlib.h>
#include <string.h>

#include "station.h"

enum { G1 = 1, G2, WD, AL }; /* our task numbers: two gauges, the watchdog, the alarm */
enum { URGENT = 5, USUAL = 20, LATER = 60 }; /* our priorities: the lower number goes first */
enum { PATIENCE = 100 }; /* a gauge that has not reported for so many ticks is silent */
enum { INTERVAL = 70 }; /* a gauge measures every so many ticks */
enum { LAST_TICK = 300 };
static const char *const names[] = {"--", "G1", "G2", "WD", "AL"}; /* by task */

static uint8_t board[STATION_BYTES];
static uint8_t timer[STATION_TIMER_BYTES]; /* lent to every start and every tick, and written by nobody else */
static int tick; /* our own count of ticks, which does not run on to 0 */
static station_answer now; /* the last answer: who runs */
static uint16_t inbox[STATION_TASKS + 1]; /* by task: the message it was handed and hasn't looked at */
static int heard[STATION_TASKS + 1]; /* by gauge: the tick of its last report */

/* what a message says, by its number */
enum what { REPORT, WATCH, ALARM };
static struct {
    enum what what;
    uint16_t gauge;
} said[STATION_MESSAGES + 1];

/* No call can be refused here: a refusal is a fault of this program. The value is handed on. */
static uint16_t sure(station_answer answer)
{
    if (answer.refusal != STATION_ACCEPTED) {
        fprintf(stderr, "watchdog: refused: %s (%d)\n", station_reason(answer.refusal), answer.refusal);
        exit(EXIT_FAILURE);
    }
    now = answer;
    if (now.delivered != 0) inbox[now.running] = now.delivered;
    return answer.value;
}

static double seconds(int ticks)
{
    return ticks * 12.8 / 1000;
}

/* the beginning of a line */
static void tell(uint16_t task)
{
    printf("%3d  %.3f s  %s  ", tick, seconds(tick), names[task]);
}

static uint16_t take_from_inbox(uint16_t task)
{
    uint16_t m = inbox[task];
    inbox[task] = 0;
    return m;
}

/* The running task writes a message, which it then holds, and which names it as sender. */
static uint16_t write_message(enum what what, uint16_t gauge)
{
    uint16_t m = sure(station_claim(board, sizeof board));
    sure(station_prepare(board, sizeof board, m, 0, station_fifo(USUAL), now.running));
    said[m].what = what;
    said[m].gauge = gauge;
    return m;
}

/* ---- the tasks: one turn each */

/* A gauge sleeps until its interrupt, and then reports. */
static void gauge(uint16_t me)
{
    static int awake[STATION_TASKS + 1];
    if (awake[me]) {
        tell(me);
        printf("reports\n");
        sure(station_send(board, sizeof board, write_message(REPORT, me), WD));
    }
    awake[me] = 1;
    sure(station_wait_for_interrupt(board, sizeof board));
}

/* A message that the watchdog holds: the timer returns it to its sender, and that is the watchdog. */
static void start_timer(uint16_t m)
{
    sure(station_start_timer(board, sizeof board, timer, sizeof timer, m, PATIENCE));
}

static void begin_with(uint16_t k)
{
    uint16_t m = write_message(WATCH, k);
    start_timer(m);
    tell(WD);
    printf("watches %s: message %d is due at tick %d\n", names[k], m, tick + PATIENCE);
}

static void look_after(uint16_t k, uint16_t m)
{
    int silent = heard[k] <= tick - PATIENCE; /* no report since the timer was started */
    const char *words = silent ? "is silent" : "has reported";
    if (silent) sure(station_send(board, sizeof board, write_message(ALARM, k), AL));
    start_timer(m);
    tell(WD);
    printf("message %d is back: %s %s; due again at tick %d\n", m, names[k], words, tick + PATIENCE);
}

/* The watchdog begins with both gauges. From then on each message that it is handed is a report, or back from the timer. */
static void watchdog(void)
{
    uint16_t m = take_from_inbox(WD);
    if (m == 0) {
        begin_with(G1);
        begin_with(G2);
    } else if (said[m].what == WATCH) {
        look_after(said[m].gauge, m);
    } else {
        heard[said[m].gauge] = tick;
        sure(station_release(board, sizeof board, m));
    }
    sure(station_receive_and_wait(board, sizeof board));
}

static void alarm_task(void)
{
    uint16_t m = take_from_inbox(AL);
    if (m != 0) {
        uint16_t k = said[m].gauge;
        tell(AL);
        printf("ALARM: nothing from %s for %.3f s\n", names[k], seconds(tick - heard[k]));
        sure(station_release(board, sizeof board, m));
    }
    sure(station_receive_and_wait(board, sizeof board));
}

/* ---- the station */

/* Whoever runs has a turn, until all wait. */
static void take_turns(void)
{
    while (now.running != 0) {
        switch (now.running) {
        case WD: watchdog(); break;
        case AL: alarm_task(); break;
        default: gauge(now.running); break;
        }
    }
}

static void install(uint16_t k, uint8_t priority)
{
    uint16_t name = (uint16_t)(names[k][0] + 256 * names[k][1]);
    sure(station_install(board, sizeof board, k, STATION_TCBB, station_fifo(priority), 0, name));
}

int main(void)
{
    sure(station_make_fresh(board, sizeof board));
    memset(timer, 0, sizeof timer); /* making a fresh board does not do this */
    install(G1, URGENT);
    install(G2, URGENT);
    install(WD, USUAL);
    install(AL, LATER);
    take_turns();
    while (tick < LAST_TICK) { /* in a station once every 12.8 ms */
        tick++;
        sure(station_pass_tick(board, sizeof board, timer, sizeof timer));
        if (tick % INTERVAL == 0) sure(station_post_interrupt(board, sizeof board, G1));
        if (tick == INTERVAL) sure(station_post_interrupt(board, sizeof board, G2)); /* and then never again */
        take_turns();
    }
    return EXIT_SUCCESS;
}
