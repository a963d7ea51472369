/*
 * A master and a charger over a bad cable, in one process: how to drive both ends of a link from C.
 *
 * Every frame goes over the line as bits: written, NRZI, lost or damaged, NRZI back, read. Both owners put a message
 * whenever there is room and take one now and then. At the end each message has been delivered once and in order.
 *
 *     gcc -std=c99 -Iinclude examples/hall.c target/staticlib/libbitbus.a -o hall && ./hall
 */
#include <stdio.h>
#include <stdlib.h>
#include <string.h>

#include "bitbus.h"

enum { NODE = 5, LIMIT = 100, EXCHANGES = 5000, DRAIN = 200, IDLE = 1 };

struct frame {
    uint8_t address, control;
    uint8_t information[BITBUS_MESSAGE_MOST];
    size_t size;
};

/* One way of the link: what its messages have gone through so far. */
struct way {
    const char *name;
    uint8_t flags; /* the flags byte of its messages: MT is set in those of the charger */
    uint32_t put, handed_over, confirmed, taken, wrong;
};

struct hall {
    uint8_t master[BITBUS_MASTER_SIZE], slave[BITBUS_SLAVE_SIZE];
    struct way down, up;
    uint32_t tick, seed;
    unsigned exchanges, frames, lost, damaged, refused, late, silences, links_gained, links_lost;
};

/* The same noise in every run (xorshift, 32 bits). */
static uint32_t below(struct hall *hall, uint32_t bound)
{
    uint32_t s = hall->seed;
    s ^= s << 13;
    s ^= s >> 17;
    s ^= s << 5;
    hall->seed = s;
    return s % bound;
}

/* For calls that nothing in this program may have refused. */
static void must(const char *call, uint32_t number)
{
    if (number != BITBUS_DONE) {
        fprintf(stderr, "%s: refused by %u\n", call, (unsigned)number);
        exit(2);
    }
}

/* ---- The line ---- */

/* A burst of noise: of at most 15 levels the first is turned over, and each other one or not. Read back that is at most
   16 bits in a row, for which the check word is made; of longer bursts it lets about one in 65,000 pass. */
static void damage(struct hall *hall, uint8_t *levels, size_t bits)
{
    size_t first = below(hall, (uint32_t)bits), at;

    for (at = first; at < bits && at < first + 15; at++)
        if (at == first || below(hall, 2))
            levels[at / 8] ^= (uint8_t)(1u << (at % 8));
}

/* Sends a frame to the other end. True where a frame was heard there. */
static bool carry(struct hall *hall, const struct frame *sent, struct frame *heard)
{
    uint8_t line[BITBUS_FRAME_MOST], levels[BITBUS_FRAME_MOST] = {0}, back[BITBUS_FRAME_MOST] = {0};
    size_t written[2], level[1], values[3];

    must("write", bitbus_write(sent->address, sent->control, sent->information, sent->size,
                               line, sizeof line, written));
    must("encode", bitbus_nrzi_encode(IDLE, line, sizeof line, written[0], levels, sizeof levels, level));
    hall->frames++;
    if (below(hall, 10) == 0) {
        hall->lost++;
        return false;
    }
    if (below(hall, 10) == 0) {
        hall->damaged++;
        damage(hall, levels, written[0]);
    }
    must("decode", bitbus_nrzi_decode(IDLE, levels, sizeof levels, written[0], back, sizeof back, level));
    if (bitbus_read(back, sizeof back, written[0], heard->information, sizeof heard->information, values)) {
        hall->refused++;
        return false;
    }
    heard->address = (uint8_t)values[0];
    heard->control = (uint8_t)values[1];
    heard->size = values[2];
    return true;
}

/* ---- The owners ---- */

/* Message number k of a way: length, flags, node, tasks, command, then the number and data of a size of its own. */
static size_t compose(const struct way *way, uint32_t k, uint8_t message[BITBUS_MESSAGE_MOST])
{
    size_t size = 9 + k * 37 % 245, at;

    message[0] = (uint8_t)(size + 2);
    message[1] = way->flags;
    message[2] = NODE;
    message[3] = 0x11;
    message[4] = 0x40;
    for (at = 5; at < 9; at++)
        message[at] = (uint8_t)(k >> (8 * (at - 5)));
    for (; at < size; at++)
        message[at] = k % 3 == 0 ? 0xFF : (uint8_t)(k * at);
    return size;
}

/* The messages of a way must come out as they were put, each once and in order. */
static void check(struct way *way, const uint8_t *message, size_t size)
{
    uint8_t expected[BITBUS_MESSAGE_MOST];

    if (compose(way, way->taken, expected) != size || memcmp(expected, message, size) != 0)
        way->wrong++;
    way->taken++;
}

/* Each owner tries a put; one that finds a message still held (13) tries again later. */
static void put(struct hall *hall)
{
    uint8_t message[BITBUS_MESSAGE_MOST];
    size_t size = compose(&hall->down, hall->down.put, message);

    if (bitbus_master_put(hall->master, message, size) == BITBUS_DONE)
        hall->down.put++;
    size = compose(&hall->up, hall->up.put, message);
    if (bitbus_slave_put(hall->slave, message, size) == BITBUS_DONE)
        hall->up.put++;
}

/* Each owner looks into its incoming slot in two of three rounds; an empty slot (14) is no fault. */
static void take(struct hall *hall)
{
    uint8_t message[BITBUS_MESSAGE_MOST];
    size_t size[1];

    if (below(hall, 3) && bitbus_master_take(hall->master, message, sizeof message, size) == BITBUS_DONE)
        check(&hall->up, message, size[0]);
    if (below(hall, 3) && bitbus_slave_take(hall->slave, message, sizeof message, size) == BITBUS_DONE)
        check(&hall->down, message, size[0]);
}

/* ---- The ends ---- */

/* The charger answers an order. False where it sends no response. */
static bool answer(struct hall *hall, const struct frame *order, struct frame *response)
{
    size_t values[6];

    if (bitbus_slave_step(hall->slave, order->address, order->control, order->information, order->size,
                          response->information, sizeof response->information, values) != BITBUS_DONE)
        return false;
    response->address = (uint8_t)values[0];
    response->control = (uint8_t)values[1];
    response->size = values[2];
    hall->up.confirmed += values[3] != 0;
    hall->down.handed_over += values[4] != 0;
    return true;
}

/* The master hears a response; one that is late counts as silence. */
static void hear(struct hall *hall, const struct frame *response)
{
    size_t values[4];

    must("response", bitbus_master_response(hall->master, hall->tick, response->address, response->control,
                                            response->information, response->size, values));
    hall->late += (unsigned)values[0];
    hall->silences += (unsigned)values[0];
    hall->down.confirmed += values[1] != 0;
    hall->up.handed_over += values[2] != 0;
    hall->links_gained += values[3] == BITBUS_LINK_GAINED;
    hall->links_lost += values[3] == BITBUS_LINK_LOST;
}

/* One order, and its response or silence. */
static void exchange(struct hall *hall)
{
    struct frame order, at_charger, response, at_master;
    size_t values[3];

    must("order", bitbus_master_order(hall->master, hall->tick, order.information, sizeof order.information, values));
    order.address = (uint8_t)values[0];
    order.control = (uint8_t)values[1];
    order.size = values[2];
    hall->exchanges++;
    hall->tick += below(hall, 50) == 0 ? LIMIT : LIMIT / 2;
    if (carry(hall, &order, &at_charger) && answer(hall, &at_charger, &response)
        && carry(hall, &response, &at_master)) {
        hear(hall, &at_master);
    } else {
        hall->silences++;
        must("silence", bitbus_master_silence(hall->master));
    }
}

/* ---- The report ---- */

static bool tell(const struct way *way)
{
    printf("%s: put %u, handed over %u, confirmed %u, taken %u, wrong %u\n", way->name, (unsigned)way->put,
           (unsigned)way->handed_over, (unsigned)way->confirmed, (unsigned)way->taken, (unsigned)way->wrong);
    return way->put > 0 && way->handed_over == way->put && way->confirmed == way->put && way->taken == way->put
           && way->wrong == 0;
}

int main(void)
{
    static struct hall hall = {.down = {.name = "to the charger", .flags = 0x00},
                               .up = {.name = "to the master", .flags = 0x80},
                               .tick = 4294900000u, /* the tick wraps on the way: ages are modulo 2 to the 32nd */
                               .seed = 20240229u};
    unsigned round;
    bool good;

    must("make", bitbus_master_make(hall.master, NODE, LIMIT));
    must("make", bitbus_slave_make(hall.slave, NODE));
    for (round = 0; round < EXCHANGES + DRAIN; round++) {
        if (round < EXCHANGES)
            put(&hall);
        exchange(&hall);
        take(&hall);
    }
    printf("exchanges %u, frames %u, lost %u, damaged %u, refused by the reader %u, late %u, silences %u\n",
           hall.exchanges, hall.frames, hall.lost, hall.damaged, hall.refused, hall.late, hall.silences);
    printf("links gained %u, lost %u\n", hall.links_gained, hall.links_lost);
    good = tell(&hall.down);
    good = tell(&hall.up) && good;
    good = good && hall.refused == hall.damaged && hall.links_lost == 0;
    good = good && !hall.master[BITBUS_AT_DOUBT] && !hall.slave[BITBUS_AT_DOUBT];
    puts(good ? "every message was delivered once and in order" : "FAILED: a message was lost, doubled or changed");
    return good ? EXIT_SUCCESS : EXIT_FAILURE;
}
