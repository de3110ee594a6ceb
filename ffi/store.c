/* A store, from C: peers, a waiter, a message that serves it, which handles are cached, and counters. */
#include "broadcast_c.h"
#include "must.h"

static const uint8_t digest[32] = {7}, other[32] = {8}, third[32] = {9};
static broadcast_store store;
static broadcast_name own, peer, stranger;

/* The key of so many bytes, all of which are the same. */
static broadcast_name name_of(uint8_t byte, uint8_t len)
{
    broadcast_name name = {{0}};
    must(len <= 64);
    memset(name.bytes, byte, len);
    name.bytes[64] = len;
    return name;
}

static broadcast_stored take(const broadcast_name *key, const uint8_t name[32], size_t charge,
                             uint64_t handle)
{
    broadcast_stored stored = {0, false, 9, 9, 9};
    must(broadcast_store_take(&store, key, name, charge, handle, &stored) == BROADCAST_OK);
    return stored;
}

/* Whether so many handles of evicted messages are moved out, at most two, and these ones. */
static bool left_are(size_t count, uint64_t first, uint64_t second)
{
    uint64_t handles[2] = {9, 9};
    size_t moved = 9;
    must(broadcast_store_left(&store, handles, 2, &moved) == BROADCAST_OK);
    return moved == count && handles[0] == first && handles[1] == second;
}

static void waits_and_is_served(void)
{
    uint64_t tickets[4] = {0}, handle = 9, removed = 9;
    size_t needed = 0;
    broadcast_stored stored;
    must(broadcast_store_subscribe(&store, 42, digest) == BROADCAST_WAITS);
    must(broadcast_store_get(&store, digest, &handle) == BROADCAST_NONE && handle == 9);
    stored = take(&peer, digest, 50, 700);
    must(stored.outcome == BROADCAST_INSERTED && stored.kept);
    must(stored.served == 1 && stored.cached == 1);
    must(broadcast_store_served(&store, tickets, 4, &needed) == BROADCAST_OK);
    must(needed == 1 && tickets[0] == 42);
    must(broadcast_store_get(&store, digest, &handle) == BROADCAST_OK && handle == 700);
    must(broadcast_store_subscribe(&store, 43, digest) == BROADCAST_OK);
    must(broadcast_store_subscribe(&store, 44, other) == BROADCAST_WAITS);
    must(broadcast_store_cleanup(&store, (const uint64_t[]){44, 45}, 2, &removed) == BROADCAST_OK);
    must(removed == 1);
    must(broadcast_store_cleanup(&store, NULL, 0, &removed) == BROADCAST_OK && removed == 0);
}

/* Of two digests that are awaited, a cleanup of one leaves the waiter of the other. */
static void is_cleaned_up_by_digest(void)
{
    uint64_t removed = 9;
    broadcast_counts counts = {9, 9};
    must(broadcast_store_subscribe(&store, 46, other) == BROADCAST_WAITS);
    must(broadcast_store_subscribe(&store, 47, third) == BROADCAST_WAITS);
    must(broadcast_store_cleanup_of(&store, other, (const uint64_t[]){47}, 1, &removed) ==
         BROADCAST_OK);
    must(removed == 0);
    must(broadcast_store_cleanup_of(&store, other, (const uint64_t[]){47, 46}, 2, &removed) ==
         BROADCAST_OK);
    must(removed == 1);
    must(broadcast_store_count(&store, &counts) == BROADCAST_OK && counts.awaited == 1);
    must(broadcast_store_cleanup_of(&store, other, NULL, 0, &removed) == BROADCAST_OK);
    must(removed == 0);
    must(broadcast_store_cleanup_of(&store, third, (const uint64_t[]){47}, 1, &removed) ==
         BROADCAST_OK);
    must(removed == 1);
}

/* A message of a digest that is cached is not kept, also one of the same handle. */
static void tells_outcomes(void)
{
    broadcast_stored stored = take(&own, digest, 50, 700);
    must(stored.outcome == BROADCAST_INSERTED && !stored.kept && stored.cached == 1);
    stored = take(&own, digest, 50, 702);
    must(stored.outcome == BROADCAST_DUPLICATE && !stored.kept);
    stored = take(&stranger, other, 50, 703);
    must(stored.outcome == BROADCAST_INELIGIBLE && !stored.kept && stored.cached == 1);
    stored = take(&own, other, 101, 704);
    must(stored.outcome == BROADCAST_OVERSIZE && !stored.kept);
}

/* The list of `peer` has room for 100 bytes, so the third message pushes the first out. */
static void evicts(void)
{
    uint64_t handle = 9;
    broadcast_stored stored;
    uint8_t list[4][32] = {{0}};
    size_t needed = 0;
    uint64_t charged = 9;
    must(broadcast_store_peers(&store, &peer, 1) == BROADCAST_OK);
    must(broadcast_store_bytes(&store, &peer, &charged) == BROADCAST_OK && charged == 50);
    must(broadcast_store_bytes(&store, &own, &charged) == BROADCAST_OK && charged == 0);
    must(take(&peer, other, 50, 705).cached == 2);
    must(left_are(0, 9, 9));
    stored = take(&peer, third, 50, 706);
    must(stored.cached == 2 && stored.left == 1);
    must(left_are(1, 700, 9) && left_are(0, 9, 9));
    must(broadcast_store_get(&store, digest, &handle) == BROADCAST_NONE);
    must(broadcast_store_get(&store, third, &handle) == BROADCAST_OK && handle == 706);
    must(broadcast_store_list(&store, &peer, list, 4, &needed) == BROADCAST_OK);
    must(needed == 2 && !memcmp(list[0], third, 32) && !memcmp(list[1], other, 32));
    must(broadcast_store_list(&store, &peer, NULL, 0, &needed) == BROADCAST_SHORT);
}

/* Each outcome is counted once, a call without a store not at all, and no number goes beyond the
 * greatest. */
static void counts(void)
{
    static const uint8_t fourth[32] = {10};
    broadcast_store empty = {NULL, false};
    broadcast_counters counters = {5, 0, 0, UINT64_MAX, 1}, sum = {UINT64_MAX - 6, 1, 1, 1, 1};
    broadcast_stored stored;
    const uint32_t outcomes[4] = {BROADCAST_INSERTED, BROADCAST_DUPLICATE, BROADCAST_INELIGIBLE,
                                  BROADCAST_OVERSIZE};
    const broadcast_name *keys[4] = {&peer, &peer, &stranger, &peer};
    const size_t charges[4] = {10, 10, 10, 101};
    for (int i = 0; i < 4; i++) {
        must(broadcast_store_receive(&store, keys[i], fourth, charges[i], 800 + i, &counters,
                                     &stored) == BROADCAST_OK);
        must(stored.outcome == outcomes[i] && stored.kept == (i == 0));
    }
    must(broadcast_store_receive(&empty, &peer, fourth, 10, 804, &counters, &stored) ==
         BROADCAST_EMPTY);
    must(counters.inserted == 6 && counters.duplicate == 1 && counters.ineligible == 1);
    must(counters.oversize == UINT64_MAX && counters.invalid == 1);
    broadcast_counters_count(&counters, BROADCAST_DUPLICATE);
    broadcast_counters_count(&counters, BROADCAST_INVALID);
    broadcast_counters_count(&counters, 5);
    must(counters.inserted == 6 && counters.duplicate == 2 && counters.ineligible == 1);
    must(counters.oversize == UINT64_MAX && counters.invalid == 2);
    broadcast_counters_add(&sum, &counters);
    must(sum.inserted == UINT64_MAX && sum.duplicate == 3 && sum.ineligible == 2);
    must(sum.oversize == UINT64_MAX && sum.invalid == 3);
}

/* The SHA-256 of "abc" is an example of FIPS 180-2. */
static void hashes(void)
{
    static const uint8_t abc[4] = {0xba, 0x78, 0x16, 0xbf}, nothing[4] = {0xe3, 0xb0, 0xc4, 0x42};
    uint8_t out[32] = {0};
    broadcast_sha256((const uint8_t *)"abc", 3, out);
    must(!memcmp(out, abc, 4));
    broadcast_sha256(NULL, 0, out);
    must(!memcmp(out, nothing, 4));
}

int main(void)
{
    broadcast_counts sizes = {0, 0};
    broadcast_name both[2];
    bool is_primary = true;
    must(broadcast_store_count(&store, &sizes) == BROADCAST_EMPTY);
    own = both[0] = name_of(1, 32), peer = both[1] = name_of(1, 33), stranger = name_of(1, 64);
    must(broadcast_store_new(&store, &own, 10, 100) == BROADCAST_OK);
    must(broadcast_store_peers(&store, both, 2) == BROADCAST_OK);
    must(broadcast_store_is_primary(&store, &stranger, &is_primary) == BROADCAST_OK);
    must(!is_primary);
    must(broadcast_store_is_primary(&store, &peer, &is_primary) == BROADCAST_OK && is_primary);
    waits_and_is_served();
    is_cleaned_up_by_digest();
    tells_outcomes();
    evicts();
    hashes();
    must(broadcast_store_count(&store, &sizes) == BROADCAST_OK);
    must(sizes.cached == 2 && sizes.awaited == 0);
    counts();
    must(broadcast_store_peers(&store, NULL, 0) == BROADCAST_OK);
    must(left_are(2, 800, 706) && left_are(1, 705, 9));
    broadcast_store_free(&store);
    broadcast_store_free(&store);
    must(broadcast_store_count(&store, &sizes) == BROADCAST_EMPTY);
    must(broadcast_store_left(&store, NULL, 0, &sizes.cached) == BROADCAST_EMPTY);
    puts("store: ok");
    return 0;
}
