/* Times the proved check codes against plain C: bit by bit, by a table, and by eight tables, as the proved ones go too.
 * Every way runs over the same 64 MiB in sectors of 512 bytes, and all must agree. */
#include "common.h"
#include "controller.h"

#include <stdio.h>
#include <stdlib.h>

#define SECTOR 512
#define TOTAL (64u << 20)
#define REPEATS 5

/* the proved library */
uint32_t disk_crc(const uint8_t *bytes, size_t length);
uint32_t disk_ecc(const uint8_t *bytes, size_t length);
uint16_t disk_burst(uint32_t difference);

/* ---- the ways: each answers the check of n bytes, a multiple of eight, as check_of does, which goes by eight tables */

typedef uint32_t (*way)(bool, const uint8_t *, size_t);

static uint32_t by_bits(bool ecc, const uint8_t *p, size_t n)
{
    uint32_t r = codes[ecc].start;
    while (n--) {
        r ^= (uint32_t)*p++ << 24;
        for (int i = 0; i < 8; i++)
            r = (r << 1) ^ (codes[ecc].polynomial & -(r >> 31));
    }
    return r;
}

static uint32_t by_table(bool ecc, const uint8_t *p, size_t n)
{
    uint32_t r = codes[ecc].start;
    while (n--)
        r = (r << 8) ^ codes[ecc].tables[0][(r >> 24) ^ *p++];
    return r;
}

static uint32_t proved(bool ecc, const uint8_t *p, size_t n)
{
    return ecc ? disk_ecc(p, n) : disk_crc(p, n) << 16;
}

/* ---- timing */

static volatile uint32_t sink;

/* the best of so many runs over all sectors, and the sum of their checks */
static double timed(way check, bool ecc, const uint8_t *data, int repeats, uint32_t *sum)
{
    double best = 1e9;
    for (int i = 0; i < repeats; i++) {
        double t = seconds();
        *sum = 0;
        for (size_t at = 0; at < TOTAL; at += SECTOR)
            *sum = *sum * 31 + check(ecc, data + at, SECTOR);
        sink = *sum;
        t = seconds() - t;
        best = t < best ? t : best;
    }
    return best;
}

/* every way of one code, beside the fastest in C; false where they do not agree */
static bool compare(bool ecc, const uint8_t *data)
{
    static const struct {
        const char *name;
        way check;
        int repeats;
    } ways[] = {
        { "C by eight tables", check_of, REPEATS },
        { "proved", proved, REPEATS },
        { "C by one table", by_table, REPEATS },
        { "C bit by bit", by_bits, 1 },
    };
    double base = 0;
    uint32_t sums[4];
    for (int i = 0; i < 4; i++) {
        double t = timed(ways[i].check, ecc, data, ways[i].repeats, &sums[i]);
        base = i == 0 ? t : base;
        printf("%s, %-23s %8.1f ms %8.0f MiB/s %7.2f x the C by eight tables\n", ecc ? "ECC" : "CRC", ways[i].name, t * 1e3,
               64.0 / t, t / base);
        if (sums[i] != sums[0]) {
            printf("THE CHECKS DISAGREE\n");
            return false;
        }
    }
    return true;
}

/* a difference that no burst has: the search goes through the whole sector */
static void time_search(void)
{
    uint32_t none = 0x12345678u;
    while (disk_burst(none) != 0xffff)
        none++;
    int turns = 20000;
    double t = seconds();
    for (int i = 0; i < turns; i++)
        sink = disk_burst(none);
    t = (seconds() - t) / turns;
    printf("full burst search, %d bytes: %.2f us\n", SECTOR, t * 1e6);
}

int main(void)
{
    uint8_t *data = malloc(TOTAL);
    if (!data)
        return 1;
    uint32_t x = SEED;
    for (size_t i = 0; i < TOTAL; i++)
        data[i] = (uint8_t)next_random(&x);
    make_tables();
    printf("64 MiB in sectors of %d bytes, best of %d runs (bit by bit: one)\n", SECTOR, REPEATS);
    if (!compare(true, data) || !compare(false, data))
        return 1;
    printf("all ways agree\n");
    time_search();
    free(data);
    return 0;
}
