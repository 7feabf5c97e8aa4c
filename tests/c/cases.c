/* The cases of tests/cases through include/station.h and the static library, every call by its own wrapper, with guard bytes
 * around the board and around the timer. It reads and writes what the program run_cases does: a case is the length as a word, a
 * call of nine bytes (kind, three words, STAT, PRIO; kind 0 checks the board, kind 254 makes it fresh, kind 253 converts an old
 * one) and the board. Kind 200 starts a timer, and kind 201 is a tick: with these two the timer comes behind the board, its
 * length first. An answer is a line: refusal, value, running, delivered, rule, record, each byte of the board that has changed,
 * and each of the timer, marked by t. */
#include <stdio.h>
#include <string.h>

#include "station.h"

enum { GUARD = 64, MOST = 65536, MARK = 0xA5, START = 200, TICK = 201 };

/* a lent buffer: as it was, and as it is between its guards */
typedef struct {
    size_t len;
    uint8_t before[MOST], area[GUARD + MOST + GUARD];
} lent;

static lent board, timer;

static int read_full(uint8_t *to, size_t n)
{
    return fread(to, 1, n, stdin) == n;
}

static uint16_t word(const uint8_t *low)
{
    return (uint16_t)(low[0] + 256 * low[1]);
}

/* so many bytes of the case, between guards */
static int lend(lent *l, size_t n)
{
    l->len = n;
    memset(l->area, MARK, GUARD);
    memset(l->area + GUARD + n, MARK, GUARD);
    if (!read_full(l->before, n)) return 0;
    memcpy(l->area + GUARD, l->before, n);
    return 1;
}

/* the timer of the case, of no bytes where its kind takes none */
static int lend_timer(uint8_t kind)
{
    uint8_t len[2] = {0, 0};
    return ((kind != START && kind != TICK) || read_full(len, sizeof len)) && lend(&timer, word(len));
}

static station_answer answer_to(const uint8_t *head)
{
    uint16_t x = word(head + 3), y = word(head + 5), name = word(head + 7);
    uint8_t stat = head[9], prio = head[10], *b = board.area + GUARD, *t = timer.area + GUARD;
    size_t n = board.len;
    switch (head[2]) {
    case 0: return station_look(b, n);
    case 1: return station_install(b, n, x, stat, prio, y, name);
    case 2: return station_post_interrupt(b, n, x);
    case 3: return station_find(b, n, x);
    case 4: return station_cancel_task(b, n, x);
    case 5: return station_claim(b, n);
    case 6: return station_prepare(b, n, x, stat, prio, y);
    case 7: return station_release(b, n, x);
    case 8: return station_send(b, n, x, y);
    case 9: return station_send_and_wait(b, n, x, y);
    case 10: return station_resend(b, n, x);
    case 11: return station_resend_and_wait(b, n, x);
    case 12: return station_forward(b, n, x, y);
    case 13: return station_forward_and_wait(b, n, x, y);
    case 14: return station_return(b, n, x);
    case 15: return station_return_and_wait(b, n, x);
    case 16: return station_receive(b, n);
    case 17: return station_receive_and_wait(b, n);
    case 18: return station_cancel_message(b, n, x, y);
    case 19: return station_wait_for_interrupt(b, n);
    case START: return station_start_timer(b, n, t, timer.len, x, y);
    case TICK: return station_pass_tick(b, n, t, timer.len);
    case 253: return station_convert_old(b, n);
    case 254: return station_make_fresh(b, n);
    default: return station_ask(b, n, head[2], x, y, name, stat, prio);
    }
}

static void print_changes(const lent *l, const char *mark)
{
    for (size_t i = 0; i < l->len; i++)
        if (l->area[GUARD + i] != l->before[i]) printf(" %s%d=%d", mark, (int)i, l->area[GUARD + i]);
}

static int guarded(const lent *l)
{
    for (size_t i = 0; i < GUARD; i++)
        if (l->area[i] != MARK || l->area[GUARD + l->len + i] != MARK) return 0;
    return 1;
}

int main(void)
{
    uint8_t head[11];
    while (read_full(head, sizeof head)) {
        if (!lend(&board, word(head)) || !lend_timer(head[2])) return 1;
        station_answer a = answer_to(head);
        printf("%d %d %d %d %d %d", a.refusal, a.value, a.running, a.delivered, a.rule, a.record);
        print_changes(&board, "");
        print_changes(&timer, "t");
        if (!guarded(&board)) printf(" and wrote outside the board");
        if (!guarded(&timer)) printf(" and wrote outside the timer");
        printf("\n");
    }
    return 0;
}
