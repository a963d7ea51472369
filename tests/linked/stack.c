/*
 * What each call of an end costs: the bytes of stack that it uses, and its nanoseconds.
 * A call runs on a painted stack; the deepest byte that has lost its paint tells what was used, the frame of its caller
 * included. Messages have 253 bytes, and where a version has several places for them, these go round. Fails (1) where a call gives another number than
 * it should, or a call of the slave's end uses STACK_LIMIT bytes or more.
 */
#define _XOPEN_SOURCE 700
#include <stdio.h>
#include <stdlib.h>
#include <string.h>
#include <time.h>
#include <ucontext.h>

#include "bitbus.h"

#ifndef BITBUS_VERSION /* 1.0.0, which is measured with its own header */
#define BITBUS_PLACES 1
#endif
enum { NODE = 5, MOST = BITBUS_MESSAGE_MOST, TURN = 5, TIMES = 10001, STACK_LIMIT = 8192, PAINT = 0xA5 };

/* Ends before a call: fresh; one place free, or full, with a message held and sent; full with none held; full and wrong
   in what 30 looks at last, the sent mark; a slave full in NDM; a master with one place free and a message held unsent,
   or with an order waiting. */
enum { S_FRESH, S_FREE, S_FULL, S_UNHELD, S_WRONG, S_NDM,
       M_UNSENT, M_FULL, M_UNHELD, M_WRONG, M_WAITS_FREE, M_WAITS_FULL, ENDS };
static uint8_t ends[ENDS][BITBUS_MASTER_SIZE], end[BITBUS_MASTER_SIZE], message[MOST] = {MOST + 2}, out[MOST];
static uint8_t control;
static size_t size, values[6];
static bool right = true;

static uint32_t s_make(void) { return bitbus_slave_make(end, NODE); }
static uint32_t s_put(void) { return bitbus_slave_put(end, message, MOST); }
static uint32_t s_take(void) { return bitbus_slave_take(end, out, MOST, values); }
static uint32_t s_step(void) { return bitbus_slave_step(end, NODE, control, message, size, out, MOST, values); }
static uint32_t s_restart(void) { return bitbus_slave_restart(end); }
static uint32_t s_clear(void) { return bitbus_slave_clear(end); }
static uint32_t m_make(void) { return bitbus_master_make(end, NODE, 65535); }
static uint32_t m_put(void) { return bitbus_master_put(end, message, MOST); }
static uint32_t m_take(void) { return bitbus_master_take(end, out, MOST, values); }
static uint32_t m_order(void) { return bitbus_master_order(end, 0, out, MOST, values); }
static uint32_t m_response(void) { return bitbus_master_response(end, 0, NODE, control, message, size, values); }
static uint32_t m_silence(void) { return bitbus_master_silence(end); }
static uint32_t m_restart(void) { return bitbus_master_restart(end); }
static uint32_t m_clear(void) { return bitbus_master_clear(end); }
static uint32_t spoil(void) { return end[BITBUS_AT_HELD_SIZE] = 0; }
static uint32_t nothing(void) { return BITBUS_DONE; }

static const struct one {
    const char *name;
    uint32_t (*call)(void), number;
    int before, control; /* the end in `ends`, the control byte of the frame that comes */
} all[] = {
    {"slave_make", s_make, 0, S_FULL, 0},
    {"slave_put", s_put, 0, S_UNHELD, 0},
    {"slave_put: 13", s_put, 13, S_FULL, 0},
    {"slave_take", s_take, 0, S_FULL, 0},
    {"slave_take: 14", s_take, 14, S_FRESH, 0},
    {"slave_take: 30", s_take, 30, S_WRONG, 0},
    {"slave_step, I is handed over and confirms", s_step, 0, S_FREE, 0},
    {"slave_step, I is not taken and confirms", s_step, 0, S_FULL, 0},
    {"slave_step, RR is answered by I", s_step, 0, S_FULL, BITBUS_RR},
    {"slave_step, RR is irrecoverable", s_step, 0, S_FULL, BITBUS_RR + 3 * 32},
    {"slave_step, SNRM synchronises", s_step, 0, S_NDM, BITBUS_SNRM},
    {"slave_step: 9", s_step, 9, S_FULL, 1},
    {"slave_step: 30", s_step, 30, S_WRONG, 0},
    {"slave_restart", s_restart, 0, S_FULL, 0},
    {"slave_clear", s_clear, 0, S_FULL, 0},
    {"master_make", m_make, 0, M_FULL, 0},
    {"master_put", m_put, 0, M_UNHELD, 0},
    {"master_take", m_take, 0, M_FULL, 0},
    {"master_order, I", m_order, 0, M_UNSENT, 0},
    {"master_order, RNR", m_order, 0, M_FULL, 0},
    {"master_order: 17", m_order, 17, M_WAITS_FULL, 0},
    {"master_response, I is handed over and confirms", m_response, 0, M_WAITS_FREE, 0},
    {"master_response, I is not taken and confirms", m_response, 0, M_WAITS_FULL, 0},
    {"master_response: 16", m_response, 16, M_FULL, 0},
    {"master_response: 30", m_response, 30, M_WRONG, 0},
    {"master_silence", m_silence, 0, M_WAITS_FULL, 0},
    {"master_restart", m_restart, 0, M_WAITS_FULL, 0},
    {"master_clear", m_clear, 0, M_FULL, 0},
};

/* A control byte of 0 stands for the I frame that is new and confirms; that of I alone is even. */
static void ready(int before, int control_byte)
{
    memcpy(end, ends[before], sizeof end);
    if (control_byte == 0)
        control_byte = BITBUS_I + 2 * end[BITBUS_AT_NR] + 32 * ((end[BITBUS_AT_NS] + 1) % 8);
    control = (uint8_t)control_byte;
    size = control % 2 == 0 ? MOST : 0;
}

/* The end `after` is what a call makes of the end `before`. */
static void make_end(int after, int before, uint32_t (*call)(void), int control_byte)
{
    ready(before, control_byte);
    right &= call() == BITBUS_DONE;
    memcpy(ends[after], end, sizeof end);
}

static void make_slaves(void)
{
    make_end(S_FRESH, S_FRESH, s_make, 0);
    make_end(S_UNHELD, S_FRESH, s_step, BITBUS_SNRM);
    for (int k = 0; k < TURN + BITBUS_PLACES; k++) {
        make_end(S_UNHELD, S_UNHELD, s_step, BITBUS_I + 2 * (k % 8));
        if (k < TURN)
            make_end(S_UNHELD, S_UNHELD, s_take, 0);
    }
    make_end(S_FULL, S_UNHELD, s_put, 0);
    make_end(S_FULL, S_FULL, s_step, BITBUS_RR);
    make_end(S_FREE, S_FULL, s_take, 0);
    make_end(S_NDM, S_FULL, s_restart, 0);
    make_end(S_WRONG, S_FULL, spoil, 0);
}

static void make_masters(void)
{
    make_end(M_UNHELD, M_UNHELD, m_make, 0);
    for (int k = -2; k < TURN + BITBUS_PLACES - 1; k++) {
        make_end(M_UNHELD, M_UNHELD, m_order, 0);
        make_end(M_UNHELD, M_UNHELD, m_response, k < 0 ? BITBUS_UA : BITBUS_I + 2 * (k % 8));
        if (k >= 0 && k < TURN)
            make_end(M_UNHELD, M_UNHELD, m_take, 0);
    }
    make_end(M_UNSENT, M_UNHELD, m_put, 0);
    make_end(M_WAITS_FREE, M_UNSENT, m_order, 0);
    make_end(M_FULL, M_WAITS_FREE, m_response, BITBUS_I + 2 * ((TURN + BITBUS_PLACES - 1) % 8));
    make_end(M_WAITS_FULL, M_FULL, m_order, 0);
    make_end(M_UNHELD, M_WAITS_FULL, m_response, BITBUS_RR + 32);
    make_end(M_WRONG, M_FULL, spoil, 0);
}

static uint32_t (*call)(void), given;
static uint8_t stack[1 << 20], *top;
static void run(void) { top = __builtin_frame_address(0); given = call(); }

/* The bytes of stack that a call uses. */
static size_t used(const struct one *one)
{
    ucontext_t here, there;
    const uint8_t *deepest = stack;

    ready(one->before, one->control);
    call = one->call;
    memset(stack, PAINT, sizeof stack);
    getcontext(&there);
    there.uc_stack = (stack_t){.ss_sp = stack, .ss_size = sizeof stack};
    there.uc_link = &here;
    makecontext(&there, run, 0);
    swapcontext(&here, &there);
    while (deepest < top && *deepest == PAINT)
        deepest++;
    return (size_t)(top - deepest);
}

static int ascending(const void *a, const void *b)
{
    return (*(const long *)a > *(const long *)b) - (*(const long *)a < *(const long *)b);
}

/* The median of a call's nanoseconds, with those of the clock. */
static long took(const struct one *one)
{
    static long times[TIMES];
    struct timespec from, to;

    for (int k = 0; k < TIMES; k++) {
        ready(one->before, one->control);
        clock_gettime(CLOCK_MONOTONIC, &from);
        one->call();
        clock_gettime(CLOCK_MONOTONIC, &to);
        times[k] = (long)(to.tv_sec - from.tv_sec) * 1000000000L + (to.tv_nsec - from.tv_nsec);
    }
    qsort(times, TIMES, sizeof times[0], ascending);
    return times[TIMES / 2];
}

int main(void)
{
    static const struct one idle = {"", nothing, 0, S_FRESH, 0};
    size_t most = 0;

    make_slaves();
    make_masters();
    printf("%-48s %6s %6s\n", "call (: the number that refuses it)", "stack", "ns");
    for (const struct one *one = all; one < all + sizeof all / sizeof all[0]; one++) {
        size_t bytes = used(one);

        right &= given == one->number;
        if (strncmp(one->name, "slave", 5) == 0 && bytes > most)
            most = bytes;
        printf("%-48s %6zu %6ld\n", one->name, bytes, took(one) - took(&idle));
    }
    printf("the slave's end uses at most %zu bytes of stack, and must stay below %d\n", most, STACK_LIMIT);
    if (!right)
        puts("FAILED: a call gave another number than it should, so that something else was measured");
    return right && most < STACK_LIMIT ? EXIT_SUCCESS : EXIT_FAILURE;
}
