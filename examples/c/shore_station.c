/* A shore station in small: two samplers, a logger, and a gauge that interrupts.
 *
 * On x86-64, after `tests/libraries`:
 *     cc -Iinclude examples/c/shore_station.c target/staticlib/libstation.a -o shore_station && ./shore_station
 *
 * The board says who runs and who has which message; the program does what each task does. A task's turn ends when it waits, or
 * sooner if it likes; then the task that runs has the next turn. No stack is switched: a task keeps its state in variables. */
#include <stdio.h>
#include <stdlib.h>

#include "station.h"

enum { S1 = 1, S2, LG, GA }; /* our task numbers */
enum { URGENT = 5, USUAL = 20, LATER = 60 }; /* our priorities: the lower number goes first */
#define NAME(first, second) ((uint16_t)((first) + 256 * (second)))

static uint8_t board[STATION_BYTES];
static station_answer now; /* the last accepted answer: who runs */
static uint16_t inbox[STATION_TASKS + 1]; /* by task: the message it was handed and hasn't looked at */

/* The board has the headers of the messages. What a message says is ours, by its number. */
static struct {
    const char *what;
    int level; /* of the water, in centimetres */
    int confirm; /* the sender waits to hear that it is in the log */
} said[STATION_MESSAGES + 1];

/* ---- every call's answer goes through one of these two */

/* A call that may be refused: whether it was accepted. A refusal has changed nothing, so the same task runs. */
static int accepted(station_answer answer)
{
    if (answer.refusal != STATION_ACCEPTED) return 0;
    now = answer;
    /* a message is handed over once, and a more urgent task may come before its receiver has a turn: note it */
    if (now.delivered != 0) inbox[now.running] = now.delivered;
    return 1;
}

/* A call that cannot be refused here: a refusal is a fault of this program. The value is handed on. */
static uint16_t sure(station_answer answer)
{
    if (!accepted(answer)) {
        fprintf(stderr, "shore_station: refused: %s (%d)\n", station_reason(answer.refusal), answer.refusal);
        exit(EXIT_FAILURE);
    }
    return answer.value;
}

/* ---- what the tasks share */

/* The running task writes a message, which it then holds. */
static uint16_t write_message(uint8_t prio, const char *what, int level, int confirm)
{
    uint16_t m = sure(station_claim(board, sizeof board));
    sure(station_prepare(board, sizeof board, m, 0, prio, 0)); /* sender 0: send puts the running task there */
    said[m].what = what;
    said[m].level = level;
    said[m].confirm = confirm;
    return m;
}

static uint16_t take_from_inbox(uint16_t task)
{
    uint16_t m = inbox[task];
    inbox[task] = 0;
    return m;
}

/* ---- the tasks: one turn each */

/* A sampler sends two readings. It waits until the second is in the log, and then for good. */
static void sampler(uint16_t me, const char *name, int level)
{
    static int readings[STATION_TASKS + 1];
    uint16_t back = take_from_inbox(me);
    if (back != 0) {
        printf("%s  message %d is back: %d cm is in the log\n", name, back, said[back].level);
        sure(station_release(board, sizeof board, back));
        sure(station_receive_and_wait(board, sizeof board));
        return;
    }
    int last = ++readings[me] == 2;
    uint16_t m = write_message(station_fifo(USUAL), name, level + readings[me], last);
    printf("%s  sends %d cm in message %d%s\n", name, said[m].level, m, last ? " and waits" : "");
    if (last)
        sure(station_send_and_wait(board, sizeof board, m, LG));
    else
        sure(station_send(board, sizeof board, m, LG));
}

/* The gauge sleeps until its interrupt. An alarm has the priority of a reading, but LIFO: it goes before all of them. */
static void gauge(void)
{
    static int awake;
    if (awake) {
        uint16_t m = write_message(station_lifo(USUAL), "ALARM", 417, 0);
        uint16_t printer = sure(station_find(board, sizeof board, NAME('L', 'P')));
        station_answer answer = station_send(board, sizeof board, m, printer);
        if (!accepted(answer)) { /* nothing has changed: the gauge still holds m and tries the logger */
            printf("GA  can't send message %d to LP: %s (%d)\n", m, station_reason(answer.refusal), answer.refusal);
            sure(station_send(board, sizeof board, m, LG));
            printf("GA  sends the alarm to LG in message %d\n", m);
        }
    }
    awake = 1;
    printf("GA  waits for an interrupt\n");
    sure(station_wait_for_interrupt(board, sizeof board));
}

/* The logger writes down what it was handed. It returns a message that is to be confirmed, and frees any other. */
static void logger(void)
{
    uint16_t m = take_from_inbox(LG);
    if (m != 0) {
        printf("LG  log: %-5s %d cm\n", said[m].what, said[m].level);
        if (said[m].confirm) {
            sure(station_return_and_wait(board, sizeof board, m));
            return;
        }
        sure(station_release(board, sizeof board, m));
    }
    sure(station_receive_and_wait(board, sizeof board));
}

static void turn(uint16_t task)
{
    switch (task) {
    case S1: sampler(S1, "S1", 210); break;
    case S2: sampler(S2, "S2", 305); break;
    case LG: logger(); break;
    case GA: gauge(); break;
    }
}

/* ---- the station */

/* A board that comes from elsewhere is looked at before it is used (one that was saved when byte 1 was always zero goes through
 * station_convert_old first). One that cannot exist is told with the rule that it breaks and the record: with rule 4 a message,
 * with rule 7 byte 1, else a task, or 0 where the rule is not one for each. */
static void look_at(const uint8_t *bytes, size_t len)
{
    station_answer answer = station_look(bytes, len);
    if (answer.refusal == STATION_ACCEPTED)
        printf("--  the board is good\n");
    else if (answer.refusal == STATION_RULE_BROKEN)
        printf("--  the board breaks rule %d at record %d: %s\n", answer.rule, answer.record, station_rule(answer.rule));
    else
        printf("--  no board: %s (%d)\n", station_reason(answer.refusal), answer.refusal);
}

static void install(uint16_t k, uint8_t priority, uint16_t name)
{
    sure(station_install(board, sizeof board, k, STATION_TCBB, station_fifo(priority), 0, name));
}

int main(void)
{
    enum { SURGE = 5 }; /* the gauge interrupts before the fifth turn, while S2 has sent one reading of two */
    enum { STAT_OF_LG = 4 + 10 * (LG - 1) }; /* its byte on the board */
    sure(station_make_fresh(board, sizeof board));
    install(S1, USUAL, NAME('S', '1'));
    install(S2, USUAL, NAME('S', '2'));
    install(LG, LATER, NAME('L', 'G'));
    install(GA, URGENT, NAME('G', 'A'));
    for (int turns = 1; now.running != 0; turns++) {
        if (turns == SURGE) {
            printf("--  interrupt\n");
            sure(station_post_interrupt(board, sizeof board, GA));
        }
        turn(now.running);
    }
    printf("--  nobody runs: all wait\n");
    look_at(board, sizeof board);
    board[STAT_OF_LG] |= STATION_MHBS; /* as a fault of the memory may do: LG waits, so it cannot be due a message */
    look_at(board, sizeof board);
    return EXIT_SUCCESS;
}
