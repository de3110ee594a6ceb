/* Refuses each allocation of a list of calls in turn, alone and with all after it. A call whose
 * allocation is refused returns MEMORY and changes nothing; at the end everything is freed.
 *
 * Linked with -Wl,--wrap=malloc,--wrap=realloc,--wrap=free. */
#include "broadcast_c.h"
#include "must.h"

void *__real_malloc(size_t);
void *__real_realloc(void *, size_t);
void __real_free(void *);

static long asked, refuse_at, live, refusals;
static bool refuse_after, is_counting;

static bool is_refused(void)
{
    if (!is_counting)
        return false;
    asked++;
    return refuse_after ? asked >= refuse_at : asked == refuse_at;
}

void *__wrap_malloc(size_t n)
{
    if (is_refused())
        return NULL;
    void *p = __real_malloc(n);
    live += p != NULL;
    return p;
}

void *__wrap_realloc(void *old, size_t n)
{
    if (is_refused())
        return NULL;
    void *p = __real_realloc(old, n);
    live += p != NULL && old == NULL;
    return p;
}

void __wrap_free(void *p)
{
    live -= p != NULL;
    __real_free(p);
}

enum { KEYS = 3, DIGESTS = 6, LISTED = 2, CALLS = 60, BUDGET = 10000 };
static broadcast_name keys[KEYS];
static uint8_t digests[DIGESTS][32];
static broadcast_store store;
static size_t entered;

typedef struct {
    broadcast_counts counts;
    uint64_t served[CALLS], handles[DIGESTS], charged[KEYS];
    size_t served_len, lengths[KEYS];
    uint8_t lists[KEYS][LISTED][32];
    uint32_t found[DIGESTS];
    bool are_primary[KEYS];
} store_state;

/* Nothing is refused while a state is read. */
static void look(store_state *to)
{
    is_counting = false;
    memset(to, 0, sizeof *to);
    must(broadcast_store_count(&store, &to->counts) == BROADCAST_OK);
    must(broadcast_store_served(&store, to->served, CALLS, &to->served_len) == BROADCAST_OK);
    for (int i = 0; i < KEYS; i++) {
        must(broadcast_store_list(&store, &keys[i], to->lists[i], LISTED, &to->lengths[i]) ==
             BROADCAST_OK);
        must(broadcast_store_is_primary(&store, &keys[i], &to->are_primary[i]) == BROADCAST_OK);
        must(broadcast_store_bytes(&store, &keys[i], &to->charged[i]) == BROADCAST_OK);
    }
    for (int i = 0; i < DIGESTS; i++)
        to->found[i] = broadcast_store_get(&store, digests[i], &to->handles[i]);
    is_counting = true;
}

/* The call with this number. If it fails, it leaves what it would report as it was. */
static uint32_t call(int at)
{
    static const uint64_t gone[] = {4, 8, 11};
    static const broadcast_stored unset = {9, true, 9, 9, 9};
    const broadcast_name *key = &keys[at % KEYS];
    const uint8_t *digest = digests[at * 5 % 7 % DIGESTS];
    broadcast_stored stored = unset;
    broadcast_counters counters = {0, 0, 0, 0, 0};
    uint64_t removed = 0;
    uint32_t status;
    switch (at % 8) {
    case 0: return broadcast_store_peers(&store, &keys[at / 8 % 2], KEYS - at / 8 % 2);
    case 1:
    case 4:
    case 6: return broadcast_store_subscribe(&store, at, digest);
    case 2:
    case 5:
        status = broadcast_store_take(&store, key, digest, at * 7, at, &stored);
        must(status == BROADCAST_OK || !memcmp(&stored, &unset, sizeof stored));
        entered += status == BROADCAST_OK && stored.kept;
        return status;
    case 3:
        status = broadcast_store_receive(&store, key, digest, at, at, &counters, &stored);
        must((counters.inserted + counters.duplicate + counters.ineligible == 1) ==
             (status == BROADCAST_OK));
        entered += status == BROADCAST_OK && stored.kept;
        return status;
    default: return broadcast_store_cleanup(&store, gone, 3, &removed);
    }
}

/* Moves out the handles of all evicted messages, one by one. Returns how many there were. */
static size_t move_all(void)
{
    uint64_t handle;
    size_t moved, all = 0;
    do {
        must(broadcast_store_left(&store, &handle, 1, &moved) == BROADCAST_OK);
        all += moved;
    } while (moved);
    return all;
}

/* Each message that entered is cached, or left once. */
static void run(void)
{
    static store_state before, after;
    entered = 0;
    uint32_t status = broadcast_store_new(&store, &keys[0], LISTED, BUDGET);
    must(status == BROADCAST_OK || (status == BROADCAST_MEMORY && !store.full));
    refusals += status == BROADCAST_MEMORY;
    for (int at = 0; at < CALLS && store.full; at++) {
        look(&before);
        status = call(at);
        look(&after);
        must(status == BROADCAST_OK || status == BROADCAST_MEMORY || status == BROADCAST_WAITS);
        if (status == BROADCAST_MEMORY) {
            refusals++;
            must(at % 8 != 7);
            must(!memcmp(&before, &after, sizeof before));
        }
    }
    if (store.full)
        must(move_all() + after.counts.cached == entered);
    broadcast_store_free(&store);
}

/* Runs the calls once for each allocation, with that one refused. Returns the number of runs. */
static long refuse_each(void)
{
    long runs = 0;
    for (refuse_at = 1;; refuse_at++) {
        long had = live;
        asked = 0;
        is_counting = true;
        run();
        is_counting = false;
        runs++;
        must(live == had);
        if (asked < refuse_at)
            return runs;
    }
}

int main(void)
{
    long runs = 0;
    for (int i = 0; i < KEYS; i++)
        keys[i].bytes[0] = i, keys[i].bytes[64] = 1;
    for (int i = 0; i < DIGESTS; i++)
        digests[i][0] = i;
    for (int after = 0; after < 2; after++) {
        refuse_after = after;
        runs += refuse_each();
    }
    must(refusals > 0);
    printf("refused: ok, %ld runs, %ld refusals\n", runs, refusals);
    return 0;
}
