/* Alice sends Bob a message. Then Mallory floods Bob, and Alice's message stays.
 *
 *     cc -Iffi ffi/hello.c ffi/heap.c rust/broadcast-node/lib/TARGET/libbroadcast_c.a -o hello
 */
#include "broadcast_c.h"
#include <stdio.h>
#include <stdlib.h>
#include <string.h>

enum { LISTED = 10, LONGEST = 1000, BUDGET = 1000000, TICKET = 7 };

/* A message of Bob's. The store knows it by its address, which is its handle. */
typedef struct {
    size_t length;
    char bytes[];
} message;

static broadcast_store bob;

static void check(bool is_well, const char *what)
{
    if (!is_well) {
        fprintf(stderr, "hello: %s failed\n", what);
        exit(1);
    }
}

static broadcast_name name_of(const char *letters)
{
    broadcast_name name = {{0}};
    name.bytes[64] = (uint8_t)strlen(letters);
    memcpy(name.bytes, letters, strlen(letters));
    return name;
}

/* Writes the packet of a text, and returns its length. */
static size_t write_packet(const char *text, uint8_t packet[4 + LONGEST])
{
    size_t length = strlen(text);
    check(length <= LONGEST && broadcast_packet_head(length, packet) == BROADCAST_OK, "a packet");
    memcpy(packet + 4, text, length);
    return 4 + length;
}

/* Frees the evicted messages. */
static void free_left(void)
{
    uint64_t handles[8];
    size_t moved;
    do {
        check(broadcast_store_left(&bob, handles, 8, &moved) == BROADCAST_OK, "left");
        for (size_t i = 0; i < moved; i++)
            free((void *)(uintptr_t)handles[i]);
    } while (moved > 0);
}

/* Bob takes a packet of a peer, which may have any bytes. Returns how many tickets it serves. */
static size_t receive(const broadcast_name *peer, const uint8_t *packet, size_t length)
{
    broadcast_place at;
    broadcast_stored stored;
    uint8_t digest[32];
    message *it;
    uint32_t status;
    if (broadcast_packet_read(packet, length, LONGEST, &at) != BROADCAST_OK)
        return 0;
    it = malloc(sizeof *it + at.length);
    check(it != NULL, "malloc");
    it->length = at.length;
    memcpy(it->bytes, packet + at.offset, at.length);
    broadcast_sha256(packet + at.offset, at.length, digest);
    status = broadcast_store_take(&bob, peer, digest, at.length, (uintptr_t)it, &stored);
    check(status == BROADCAST_OK, "take");
    if (!stored.kept)
        free(it);
    free_left();
    return stored.served;
}

int main(void)
{
    uint8_t packet[4 + LONGEST], digest[32];
    broadcast_name own, alice, mallory, peers[2];
    uint64_t ticket = 0, handle = 0;
    size_t length, count = 0;
    peers[0] = alice = name_of("alice"), peers[1] = mallory = name_of("mallory");
    check(broadcast_c_version() == BROADCAST_VERSION, "header and library differ: linking");
    own = name_of("bob");
    check(broadcast_store_new(&bob, &own, LISTED, BUDGET) == BROADCAST_OK, "new");
    check(broadcast_store_peers(&bob, peers, 2) == BROADCAST_OK, "peers");

    length = write_packet("hello", packet);
    broadcast_sha256(packet + 4, length - 4, digest);
    printf("Alice broadcasts \"hello\", whose digest is ");
    for (size_t i = 0; i < sizeof digest; i++)
        printf("%02x", digest[i]);
    puts("");
    if (broadcast_store_subscribe(&bob, TICKET, digest) == BROADCAST_WAITS)
        printf("Bob does not have it yet: a subscribe waits as ticket %d\n", TICKET);
    if (receive(&alice, packet, length) == 1 &&
        broadcast_store_served(&bob, &ticket, 1, &count) == BROADCAST_OK)
        printf("Bob receives it, and replies to ticket %d\n", (int)ticket);

    for (int number = 0; number < 1000; number++) {
        char text[24];
        snprintf(text, sizeof text, "spam %d", number);
        receive(&mallory, packet, write_packet(text, packet));
    }
    /* There is room for none, so this counts. */
    broadcast_store_list(&bob, &mallory, NULL, 0, &count);
    printf("Mallory sends Bob 1,000 messages, of which Bob keeps the newest %d\n", (int)count);
    if (broadcast_store_get(&bob, digest, &handle) == BROADCAST_OK) {
        const message *kept = (const message *)(uintptr_t)handle;
        printf("Bob still has Alice's message: \"%.*s\"\n", (int)kept->length, kept->bytes);
    }

    /* Without primary peers all messages leave. */
    check(broadcast_store_peers(&bob, NULL, 0) == BROADCAST_OK, "peers");
    free_left();
    broadcast_store_free(&bob);
    return 0;
}
