/* Compares the proved controller with the one in plain C (compare.c), and then times both on the same rounds: sectors read and
 * written through register 0, reads that correct a burst, and refused accesses. Both hear the same sums, and leave the same image.
 *
 * Each access is a call on either side: bench/controller.c is an object of its own, and crate `c_board` keeps its accesses out of
 * line. With a task's number and `proved` or `plain` only those rounds are made, for a profiler. */
#include "common.h"
#include "compare.h"

#include <stdio.h>
#include <stdlib.h>
#include <string.h>

#define SECTOR 512
#define SECTORS 8
#define REPEATS 7
#define LENGTH (4 * 2 * (HEADER + SECTORS * SECTOR))

static const struct measures measures = { 4, 2, false, SECTORS * SECTOR };

/* ---- the rounds of crate `c_board`, on the controller in plain C */

static uint32_t with_number(uint32_t sum, int number)
{
    return sum * 31 + (uint32_t)number;
}

static uint32_t hear_read(struct controller *c, unsigned number, uint32_t sum)
{
    int answer = read_register(c, number);
    return with_number(sum, answer < 0 ? -answer : answer);
}

static uint32_t hear_write(struct controller *c, unsigned number, unsigned byte, uint32_t sum)
{
    return with_number(sum, write_register(c, number, (uint8_t)byte));
}

static uint32_t hear_turn(struct controller *c, uint32_t sum)
{
    turn(c);
    return with_number(sum, 0);
}

static uint32_t read_one(struct controller *c, unsigned turns, unsigned number, uint32_t sum)
{
    sum = hear_write(c, 3, number, sum);
    sum = hear_write(c, 7, 0x20, sum);
    for (unsigned i = 0; i < turns; i++)
        sum = hear_turn(c, sum);
    sum = hear_read(c, 7, sum);
    for (unsigned at = 0; at < SECTOR; at++)
        sum = hear_read(c, 0, sum);
    return sum;
}

static uint32_t write_one(struct controller *c, unsigned number, uint32_t sum)
{
    sum = hear_write(c, 3, number, sum);
    sum = hear_write(c, 7, 0x30, sum);
    for (unsigned at = 0; at < SECTOR; at++)
        sum = hear_write(c, 0, at + number, sum);
    sum = hear_turn(c, sum);
    return hear_read(c, 7, sum);
}

static uint32_t refuse(struct controller *c, uint32_t rounds, uint32_t sum)
{
    for (uint32_t i = 0; i < rounds; i++) {
        sum = hear_read(c, 8, sum);
        sum = hear_write(c, 8, 1, sum);
        sum = hear_write(c, 0, 1, sum);
        sum = hear_write(c, 2, 1, sum);
        sum = hear_write(c, 7, 0xff, sum);
    }
    return sum;
}

static uint32_t make_rounds(struct controller *c, const struct rounds *r)
{
    uint32_t sum = 0;
    switch (r->kind) {
    case READS:
        for (uint32_t i = 0; i < r->count; i++)
            sum = read_one(c, r->turns, i % SECTORS, sum);
        return sum;
    case WRITES:
        for (uint32_t i = 0; i < r->count; i++)
            sum = write_one(c, i % SECTORS, sum);
        return sum;
    default: return refuse(c, r->count, sum);
    }
}

/* ---- the tasks */

/* what precedes the rounds: Test ends, and SDH is set to ECC, 512 bytes, Winchester and head 0; a read offers its bytes */
#define FIRST 4
static const struct call first[FIRST] = { { CALL_TURN, 0, 0 }, { CALL_WRITE, 6, 0xa0 }, { CALL_WRITE, 7, 0x20 }, { CALL_TURN, 0, 0 } };

enum task { READ, WRITE, CORRECTED, REFUSED, TASKS };

/* rounds after so many of those calls, on one controller or, where the second count is not 0, on two, and how many sectors or
 * accesses they are; BUSY is on before the first call, and bytes are offered after the last */
static const struct {
    const char *name;
    struct part {
        size_t calls;
        struct rounds rounds;
    } parts[2];
    uint32_t units;
} tasks[TASKS] = {
    [READ] = { "sector read, 512 bytes", { { 2, { READS, 1, 20000 } } }, 20000 },
    [WRITE] = { "sector write, 512 bytes", { { 2, { WRITES, 0, 20000 } } }, 20000 },
    [CORRECTED] = { "read with a corrected burst", { { 2, { READS, 2, 4000 } } }, 4000 },
    [REFUSED] = { "a million refused accesses", { { 0, { REFUSALS, 0, 100000 } }, { FIRST, { REFUSALS, 0, 100000 } } }, 1 },
};

/* A burst in each sector, from its first bits to its last; every attempt of the rounds shows it. */
static struct fault bursts[SECTORS];

static void make_bursts(void)
{
    for (unsigned i = 0; i < SECTORS; i++)
        bursts[i] = (struct fault){ .number = (uint8_t)i, .kind = WRONG_BITS, .first = (uint16_t)(100 + 516 * i),
                                    .pattern = (uint8_t)(2 * (5 * i % 16) + 1), .attempts = 65535 };
}

static const struct measures no_floppy = { 0 };

static uint32_t run_plain(const struct part *part, size_t faults, uint8_t *bytes)
{
    static struct controller c;
    fit_winchester(&c.winchester, &measures, bytes, LENGTH);
    fit_floppy(&c.floppy, &no_floppy, NULL, 0);
    for (size_t i = 0; i < faults; i++)
        add_fault(&c.winchester, &bursts[i]);
    master_reset(&c);
    for (size_t i = 0; i < part->calls; i++)
        make_call(&c, &first[i]);
    return make_rounds(&c, &part->rounds);
}

static uint32_t run_proved(const struct part *part, size_t faults, uint8_t *bytes)
{
    struct answer answers[FIRST];
    uint8_t none;
    uint32_t sum = 0;
    disk_answers(&measures, bytes, LENGTH, &no_floppy, &none, 0, bursts, faults, first, part->calls, answers, part->calls,
                 &part->rounds, &sum);
    return sum;
}

/* ---- timing */

static uint8_t image[LENGTH], proved_image[LENGTH], plain_image[LENGTH];

/* a formatted track with pseudo-random sectors */
static void make_image(void)
{
    uint32_t x = SEED;
    image[0] = SECTORS;
    image[1] = 1;
    for (unsigned i = 0; i < SECTORS; i++) {
        uint8_t *bytes = image + HEADER + i * SECTOR;
        image[2 + 2 * i] = (uint8_t)i;
        for (unsigned at = 0; at < SECTOR; at++)
            bytes[at] = (uint8_t)(next_random(&x) >> 11);
        uint32_t check = check_of(true, bytes, SECTOR);
        for (unsigned k = 0; k < 4; k++)
            image[130 + 4 * i + k] = (uint8_t)(check >> (24 - 8 * k));
    }
}

static double timed(uint32_t (*run)(const struct part *, size_t, uint8_t *), enum task task, uint8_t *bytes, uint32_t *sum)
{
    memcpy(bytes, image, LENGTH);
    *sum = 0;
    double begun = seconds();
    for (const struct part *part = tasks[task].parts; part < tasks[task].parts + 2; part++)
        if (part->rounds.count != 0)
            *sum = with_number(*sum, (int)run(part, task == CORRECTED ? SECTORS : 0, bytes));
    return seconds() - begun;
}

/* the best of both by turns; false where they differ in what they hear or leave */
static bool compare_speed(enum task task)
{
    double proved = 1e9, plain = 1e9;
    uint32_t proved_sum, plain_sum;
    for (int i = 0; i < REPEATS; i++) {
        double t = timed(run_proved, task, proved_image, &proved_sum);
        proved = t < proved ? t : proved;
        t = timed(run_plain, task, plain_image, &plain_sum);
        plain = t < plain ? t : plain;
        if (proved_sum != plain_sum || memcmp(proved_image, plain_image, LENGTH) != 0) {
            printf("%s: THE ROUNDS DISAGREE\n", tasks[task].name);
            return false;
        }
    }
    double micro = 1e6 / tasks[task].units;
    printf("%-28s %10.2f us %10.2f us %8.2f\n", tasks[task].name, proved * micro, plain * micro, proved / plain);
    return true;
}

int main(int argc, char **argv)
{
    make_tables();
    make_image();
    make_bursts();
    if (argc == 3) {
        enum task task = (enum task)(atoi(argv[1]) - 1);
        uint32_t sum;
        if (task < TASKS)
            timed(strcmp(argv[2], "plain") == 0 ? run_plain : run_proved, task, plain_image, &sum);
        return task >= TASKS;
    }
    if (!controllers_agree())
        return 1;
    printf("controller, best of %d by turns %17s %13s %8s\n", REPEATS, "proved", "plain C", "ratio");
    for (enum task task = READ; task < TASKS; task++)
        if (!compare_speed(task))
            return 1;
    return 0;
}
