/* The log of an author, from C: what is listed, what leaves, what is reported, and what a peer is sent. */
#include "broadcast_c.h"
#include "must.h"

static broadcast_log log_of_author, peer;

static uint32_t arrive(broadcast_log *log, uint64_t prev, uint64_t stamp, uint64_t *left, size_t *needed)
{
    broadcast_message message = {0, 0, 36, 0};
    uint32_t arrived = 9;
    message.prev = prev;
    message.stamp = stamp;
    message.handle = 100 + stamp;
    must(broadcast_log_arrive(log, &message, 99, left, 1, needed, &arrived) == BROADCAST_OK);
    return arrived;
}

/* Each message is charged 100, so a budget of 300 has room for three. */
static void keeps_the_newest(void)
{
    uint64_t left[1] = {9}, floor = 9, bytes = 9;
    size_t needed = 9, len = 9;
    broadcast_message out = {9, 9, 9, 9}, large = {40, 50, 200, 150};
    uint32_t arrived = 9;
    must(arrive(&log_of_author, 0, 10, left, &needed) == BROADCAST_LISTED && needed == 0);
    must(arrive(&log_of_author, 20, 30, left, &needed) == BROADCAST_LISTED);
    must(arrive(&log_of_author, 10, 20, left, &needed) == BROADCAST_LISTED);
    must(arrive(&log_of_author, 10, 20, left, &needed) == BROADCAST_REFUSED);
    must(arrive(&log_of_author, 90, 100, left, &needed) == BROADCAST_UNTIMELY);
    must(left[0] == 9);
    must(arrive(&log_of_author, 30, 40, left, &needed) == BROADCAST_LISTED);
    must(needed == 1 && left[0] == 110);
    /* Three messages have to leave for a large one, and there is room for one handle. */
    must(broadcast_log_arrive(&log_of_author, &large, 99, left, 1, &needed, &arrived) == BROADCAST_SHORT);
    must(needed == 3 && left[0] == 110 && arrived == 9);
    must(broadcast_log_count(&log_of_author, &floor, &len, &bytes) == BROADCAST_OK);
    must(floor == 10 && len == 3 && bytes == 300);
    must(broadcast_log_has(&log_of_author, 10) == BROADCAST_OK);
    must(broadcast_log_has(&log_of_author, 11) == BROADCAST_NONE);
    must(broadcast_log_get(&log_of_author, 0, &out) == BROADCAST_OK && out.handle == 120);
    must(broadcast_log_find(&log_of_author, 40, &out) == BROADCAST_OK && out.handle == 140);
    must(broadcast_log_get(&log_of_author, 3, &out) == BROADCAST_NONE && out.handle == 140);
    must(broadcast_log_find(&log_of_author, 10, &out) == BROADCAST_NONE && out.handle == 140);
}

/* The peer has the message 30, and lacks 20 and 40. */
static void sends_what_a_peer_lacks(void)
{
    uint64_t left[1], floor = 9, bytes = 9;
    const uint64_t in_flight[1] = {20};
    size_t needed = 9;
    broadcast_span spans[63], gap = {9, 9};
    broadcast_message out = {9, 9, 9, 9};
    must(arrive(&peer, 20, 30, left, &needed) == BROADCAST_LISTED);
    must(broadcast_log_report(&peer, &floor, &gap, 0, &needed) == BROADCAST_SHORT);
    must(needed == 1 && floor == 9);
    must(broadcast_log_report(&peer, &floor, spans, 63, &needed) == BROADCAST_OK);
    must(needed == 1 && floor == 0 && spans[0].from == 20 && spans[0].to == 30);
    must(broadcast_log_next(&log_of_author, floor, spans, 1, 0, NULL, 0, 0, 1, &out) == BROADCAST_OK);
    must(out.stamp == 20);
    must(broadcast_log_next(&log_of_author, floor, spans, 1, 0, in_flight, 1, 36, 37, &out) == BROADCAST_OK);
    must(out.stamp == 40);
    must(broadcast_log_next(&log_of_author, floor, spans, 1, 40, in_flight, 1, 36, 37, &out) == BROADCAST_NONE);
    must(broadcast_log_next(&log_of_author, floor, spans, 1, 0, in_flight, 1, 37, 37, &out) == BROADCAST_NONE);
    must(broadcast_log_lag(&log_of_author, floor, spans, 1, &bytes) == BROADCAST_OK && bytes == 200);
    must(broadcast_log_lag(&log_of_author, 50, spans, 1, &bytes) == BROADCAST_NO_COVERAGE && bytes == 200);
}

int main(void)
{
    uint64_t bytes = 9;
    must(broadcast_log_lag(&peer, 0, NULL, 0, &bytes) == BROADCAST_EMPTY);
    must(broadcast_log_new(&log_of_author, 300) == BROADCAST_OK);
    must(broadcast_log_new(&peer, 300) == BROADCAST_OK);
    keeps_the_newest();
    sends_what_a_peer_lacks();
    broadcast_log_free(&log_of_author);
    broadcast_log_free(&peer);
    must(broadcast_log_has(&log_of_author, 10) == BROADCAST_EMPTY);
    puts("log: ok");
    return 0;
}
