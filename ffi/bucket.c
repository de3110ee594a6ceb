/* Buckets, from C: the burst and the rate, a debt that is paid first, and the time of a level. */
#include "broadcast_c.h"
#include "must.h"

static const uint64_t SECOND = 1000000000;

static void grants_the_burst_and_then_the_rate(void)
{
    /* 10 tokens at once, and 4 a second. */
    broadcast_bucket bucket = {4, 10, SECOND, 0, 0};
    must(broadcast_bucket_level(&bucket, 0) == 10);
    broadcast_bucket_charge(&bucket, SECOND, 10);
    must(broadcast_bucket_level(&bucket, SECOND + SECOND / 4 - 1) == 0);
    must(broadcast_bucket_level(&bucket, SECOND + SECOND / 4) == 1);
    must(broadcast_bucket_level(&bucket, UINT64_MAX) == 10);
}

static void pays_a_debt_first(void)
{
    broadcast_bucket bucket = {4, 10, 0, 0, 0};
    uint64_t at = 9;
    broadcast_bucket_charge(&bucket, 0, 14);
    must(broadcast_bucket_level(&bucket, SECOND) == 0);
    must(broadcast_bucket_ready(&bucket, 0, 1, &at) == BROADCAST_OK && at == SECOND + SECOND / 4);
    must(broadcast_bucket_level(&bucket, at) == 1);
    must(broadcast_bucket_ready(&bucket, 0, 10, &at) == BROADCAST_OK && at == 3 * SECOND + SECOND / 2);
    must(broadcast_bucket_ready(&bucket, 0, 11, &at) == BROADCAST_NONE);
    must(at == 3 * SECOND + SECOND / 2);
}

/* The greatest debts have more than 64 bits. */
static void owes_much(void)
{
    broadcast_bucket bucket = {UINT64_MAX, UINT64_MAX, 0, 0, 0};
    uint64_t at = 9;
    broadcast_bucket_charge(&bucket, 0, UINT64_MAX);
    broadcast_bucket_charge(&bucket, 0, UINT64_MAX);
    must(broadcast_bucket_level(&bucket, SECOND) == 0 && bucket.high > 0);
    must(broadcast_bucket_level(&bucket, 2 * SECOND) == UINT64_MAX);
    bucket.rate = 1;
    bucket.low = bucket.high = UINT64_MAX;
    broadcast_bucket_charge(&bucket, 0, 1);
    must(bucket.low == UINT64_MAX && bucket.high == UINT64_MAX);
    must(broadcast_bucket_ready(&bucket, 0, 1, &at) == BROADCAST_NONE && at == 9);
}

int main(void)
{
    grants_the_burst_and_then_the_rate();
    pays_a_debt_first();
    owes_much();
    puts("bucket: ok");
    return 0;
}
