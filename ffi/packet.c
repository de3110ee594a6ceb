/* The wire format, from C: what is written in front of a message, and what is read of packets. */
#include "broadcast_c.h"
#include "must.h"

enum { MAX_LEN = 3 };

/* Packets, and what is read of them. */
static const struct {
    uint8_t bytes[10];
    size_t len;
    uint32_t status;
    size_t offset, length;
} PACKETS[] = {
    {{0, 0, 0, 0}, 4, BROADCAST_OK, 4, 0},
    {{0, 0, 0, 3, 'a', 'b', 'c'}, 7, BROADCAST_OK, 4, 3},
    {{0}, 0, BROADCAST_END_OF_BUFFER, 9, 9},
    {{0, 0, 0}, 3, BROADCAST_END_OF_BUFFER, 9, 9},
    {{0, 0, 0, 3, 'a', 'b'}, 6, BROADCAST_END_OF_BUFFER, 9, 9},
    {{0, 0, 0, 4, 'a', 'b', 'c', 'd'}, 8, BROADCAST_INVALID_LENGTH, 9, 4},
    {{1, 0, 0, 0}, 4, BROADCAST_INVALID_LENGTH, 9, 1 << 24},
    {{0, 0, 0, 1, 'a', 'b', 'c'}, 7, BROADCAST_EXTRA_DATA, 9, 2},
};

static void reads(void)
{
    for (size_t i = 0; i < sizeof PACKETS / sizeof *PACKETS; i++) {
        broadcast_place place = {9, 9};
        must(broadcast_packet_read(PACKETS[i].bytes, PACKETS[i].len, MAX_LEN, &place) ==
             PACKETS[i].status);
        must(place.offset == PACKETS[i].offset && place.length == PACKETS[i].length);
    }
}

static void writes(void)
{
    static const uint8_t greatest[4] = {255, 255, 255, 255}, short_one[4] = {0, 0, 1, 2};
    uint8_t head[4] = {9, 9, 9, 9};
    must(broadcast_packet_head((size_t)UINT32_MAX + 1, head) == BROADCAST_TOO_LONG);
    must(head[0] == 9 && head[3] == 9);
    must(broadcast_packet_head(258, head) == BROADCAST_OK && !memcmp(head, short_one, 4));
    must(broadcast_packet_head(UINT32_MAX, head) == BROADCAST_OK && !memcmp(head, greatest, 4));
}

int main(void)
{
    reads();
    writes();
    must(broadcast_c_version() == BROADCAST_VERSION);
    puts("packet: ok");
    return 0;
}
