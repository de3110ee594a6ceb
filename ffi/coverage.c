/* Coverages, from C: what was had, what is missing, and what is refused. */
#include "broadcast_c.h"
#include "must.h"

static const broadcast_span spans[] = {{7, 9}, {12, 13}};

static bool has(uint64_t stamp)
{
    uint32_t status = broadcast_coverage_has(5, spans, 2, stamp);
    must(status == BROADCAST_OK || status == BROADCAST_NONE);
    return status == BROADCAST_OK;
}

static void has_its_stamps(void)
{
    must(!has(0) && has(1) && has(5) && !has(6) && !has(7) && has(8) && has(9) && !has(12) && has(13));
    must(broadcast_coverage_has(0, NULL, 0, 1) == BROADCAST_NONE);
}

static void finds_what_is_missing(void)
{
    static const broadcast_span others[] = {{10, UINT64_MAX}};
    uint64_t stamp = 99;
    must(broadcast_coverage_missing(5, spans, 1, 9, others, 1, 7, 10, &stamp) == BROADCAST_NONE);
    must(stamp == 99);
    must(broadcast_coverage_missing(5, spans, 1, 9, others, 1, 7, 11, &stamp) == BROADCAST_OK);
    must(stamp == 11);
    must(broadcast_coverage_missing(5, spans, 1, 9, others, 1, 0, 11, &stamp) == BROADCAST_OK);
    must(stamp == 6);
}

/* A refused call changes nothing. */
static void refuses(void)
{
    static const broadcast_span wrong[][2] = {
        {{5, 7}, {8, 9}}, {{6, 7}, {7, 9}}, {{8, 7}, {9, 9}}, {{6, 7}, {9, 9}}};
    uint64_t stamp = 99;
    for (size_t i = 0; i < sizeof wrong / sizeof *wrong; i++) {
        must(broadcast_coverage_has(5, wrong[i], 2, 6) == BROADCAST_NO_COVERAGE);
        must(broadcast_coverage_missing(5, wrong[i], 2, 9, NULL, 0, 0, 9, &stamp) ==
             BROADCAST_NO_COVERAGE);
        must(broadcast_coverage_missing(9, NULL, 0, 5, wrong[i], 2, 0, 9, &stamp) ==
             BROADCAST_NO_COVERAGE);
    }
    must(stamp == 99);
}

int main(void)
{
    has_its_stamps();
    finds_what_is_missing();
    refuses();
    puts("coverage: ok");
    return 0;
}
