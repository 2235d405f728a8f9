/* Compares the controller in plain C with the proved one on pseudo-random calls: every answer, both lines, BUSY and the last
 * fault after each call, and every byte of both images at the end. */
#include "common.h"
#include "compare.h"

#include <stdio.h>
#include <stdlib.h>
#include <string.h>

#define BOARDS 96
#define CALLS 50000
#define MOST_MEMORY (1u << 20)
#define MOST_FAULTS 36 /* more than a table takes */

static const uint16_t size_bytes[4] = { 256, 512, 1024, 128 };

/* a number below n */
static unsigned below(unsigned n)
{
    static uint32_t seed = SEED;
    return (next_random(&seed) >> 8) % n;
}

static bool chance(unsigned in)
{
    return below(in) == 0;
}

/* ---- what a board begins with */

struct board {
    struct measures winchester, floppy;
    size_t winchester_length, floppy_length;
    struct fault faults[MOST_FAULTS];
    unsigned fault_count, size; /* the size code of most sectors */
};

static struct board board;
static struct call calls[CALLS];
static struct answer proved[CALLS], plain[CALLS];
static uint8_t winchester[3][MOST_MEMORY], floppy[3][MOST_MEMORY]; /* at first, by the proved one, and by C */

/* a track of good and bad sectors, some with wrong check bytes; now and then a record that holds no track */
static void fill_track(uint8_t *track, uint32_t capacity)
{
    unsigned size = chance(4) ? below(4) : board.size, n = size_bytes[size], most = capacity / n;
    unsigned count = most == 0 ? 0 : 1 + below(most < 64 ? most : 64);
    bool ecc = below(4) != 0;
    for (uint32_t i = 0; i < HEADER + capacity; i++)
        track[i] = (uint8_t)below(256);
    track[0] = (uint8_t)count;
    track[1] = (uint8_t)size;
    for (unsigned i = 0; i < count; i++) {
        uint8_t *check = track + 130 + 4 * i;
        uint32_t sum = check_of(ecc, track + HEADER + i * n, n);
        track[2 + 2 * i] = (uint8_t)(chance(8) ? below(12) : i);
        track[3 + 2 * i] = chance(10) ? 0x80 : 0;
        if (!chance(8))
            for (int k = 0; k < 4; k++)
                check[k] = (uint8_t)(sum >> (24 - 8 * k));
        if (chance(4))
            track[HEADER + i * n + below(n)] ^= (uint8_t)(chance(4) ? below(256) : 1u << below(8));
    }
    if (chance(12))
        track[chance(2) ? 0 : 1 + 2 * below(10)] = (uint8_t)below(256);
}

static size_t fill_image(const struct measures *m, uint8_t *memory)
{
    size_t record = HEADER + m->capacity, length = (size_t)m->cylinders * m->heads * record;
    for (size_t at = 0; at < length; at += record) {
        memset(memory + at, 0, record);
        if (!chance(5))
            fill_track(memory + at, m->capacity);
    }
    /* at times the memory is too short, or a measure is wrong: then the bay is empty */
    return length - chance(12);
}

static void make_faults(void)
{
    board.fault_count = below(3) ? below(MOST_FAULTS + 1) : 0;
    for (unsigned i = 0; i < board.fault_count; i++)
        board.faults[i] = (struct fault){
            .cylinder = (uint16_t)below(chance(20) ? 1100 : board.winchester.cylinders),
            .head = (uint8_t)below(chance(20) ? 9 : board.winchester.heads),
            .number = (uint8_t)below(5),
            .kind = (uint8_t)(below(5) < 3 ? WRONG_BITS : 1 + below(2)),
            .first = (uint16_t)(chance(20) ? 8220 + below(8) : below(chance(2) ? 1060 : 4200)),
            .pattern = (uint8_t)(chance(20) ? below(40) : 2 * below(16) + 1),
            .attempts = (uint16_t)(chance(20) ? 0 : 1 + below(10)),
        };
}

static void make_board(void)
{
    static const uint32_t capacities[] = { 128, 2048, 3072, 4096, 8192, 9216 };
    board.size = below(4);
    board.winchester = (struct measures){ (uint16_t)(1 + below(5)), (uint8_t)(1 + below(8)), chance(8), capacities[below(6)] };
    board.floppy = (struct measures){ (uint16_t)(1 + below(5)), (uint8_t)(1 + below(2)), chance(4), capacities[below(6)] };
    if (chance(16))
        board.winchester = (struct measures){ 300, 1, false, 256 };
    board.winchester_length = fill_image(&board.winchester, winchester[0]);
    board.floppy_length = fill_image(&board.floppy, floppy[0]);
    make_faults();
}

/* ---- the next call on it, by a host that often errs */

static struct call call_of(enum call_kind kind, unsigned number, unsigned byte)
{
    return (struct call){ (uint8_t)kind, (uint8_t)number, (uint8_t)byte };
}

static struct call noise(void)
{
    if (chance(8))
        return call_of(chance(4) ? CALL_RESET : CALL_TURN, 0, 0);
    return chance(3) ? call_of(CALL_WRITE, below(10), below(256)) : call_of(CALL_READ, below(10), 0);
}

static unsigned some_command(void)
{
    switch (below(12)) {
    case 0: return 0x10 + below(16);
    case 1: return 0x70 + below(16);
    case 2: return chance(3) ? 0x90 : below(256);
    case 3: return 0x50;
    case 4: case 5: case 6: return 0x30 + 2 * below(4);
    default: return 0x20 + 2 * below(8);
    }
}

static unsigned some_sdh(void)
{
    unsigned drive = chance(12) ? below(32) : below(3) ? below(board.winchester.heads) : 0x18 + below(board.floppy.heads);
    bool ecc = chance(8) ? below(2) : drive < 8;
    return (ecc ? 0x80 : 0) + 0x20 * (chance(4) ? below(4) : board.size) + drive;
}

/* at rest: mostly a register is set for the next command, or it is given */
static struct call next_at_rest(void)
{
    switch (below(8)) {
    case 0: return call_of(CALL_WRITE, 2, chance(6) ? below(256) : 1 + below(6));
    case 1: return call_of(CALL_WRITE, 3, below(chance(8) ? 70 : 4));
    case 2: return call_of(CALL_WRITE, 4, chance(20) ? below(256) : below(board.winchester.cylinders));
    case 3: return call_of(CALL_WRITE, 5, chance(20) ? below(256) : 4 * below(64));
    case 4: return call_of(CALL_WRITE, 6, some_sdh());
    case 5: return call_of(CALL_READ, chance(2) ? 1 : 7, 0);
    default: return call_of(CALL_WRITE, 7, some_command());
    }
}

/* a byte that is taken: pairs for a format, good and bad marks and the numbers in order, and else anything */
static unsigned some_byte(const struct controller *c)
{
    if (c->multiple || c->is_long || c->registers[2] == 0 || c->at >= 128)
        return below(256);
    return c->at % 2 ? c->at / 2 : chance(8) ? below(256) : 0;
}

static struct call next_call(const struct controller *c)
{
    if (chance(60))
        return noise();
    if (c->phase != AT_REST && chance(400))
        return call_of(CALL_WRITE, 7, some_command());
    switch (c->phase) {
    case AT_REST: return next_at_rest();
    case BUSY: return call_of(CALL_TURN, 0, 0);
    case OFFERING: return chance(50) ? call_of(CALL_READ, chance(2) ? 1 : 7, 0) : call_of(CALL_READ, 0, 0);
    default: return call_of(CALL_WRITE, 0, some_byte(c));
    }
}

/* ---- both answer */

static void show(const struct controller *c, struct answer *a)
{
    a->drq = c->phase == OFFERING || c->phase == TAKING;
    a->intrq = c->intrq;
    a->busy = c->phase == BUSY;
    a->layer = c->fault.layer;
    a->error = c->fault.error;
    a->head = c->fault.head;
    a->number = c->fault.number;
    a->attempts = c->fault.attempts;
    a->cylinder = c->fault.cylinder;
}

struct answer make_call(struct controller *c, const struct call *call)
{
    struct answer a = { 0 };
    int answer = 0;
    switch (call->kind) {
    case CALL_READ: answer = read_register(c, call->number); break;
    case CALL_WRITE: answer = -write_register(c, call->number, call->byte); break;
    case CALL_TURN: turn(c); break;
    default: master_reset(c); break;
    }
    a.refusal = (uint8_t)(answer < 0 ? -answer : 0);
    a.byte = (uint8_t)(answer > 0 ? answer : 0);
    show(c, &a);
    return a;
}

static void answer_plainly(void)
{
    static struct controller c;
    fit_winchester(&c.winchester, &board.winchester, winchester[2], board.winchester_length);
    fit_floppy(&c.floppy, &board.floppy, floppy[2], board.floppy_length);
    for (unsigned i = 0; i < board.fault_count; i++)
        add_fault(&c.winchester, &board.faults[i]);
    master_reset(&c);
    for (unsigned i = 0; i < CALLS; i++) {
        calls[i] = next_call(&c);
        plain[i] = make_call(&c, &calls[i]);
    }
}

static bool answer_both(void)
{
    static const struct rounds none = { 0 };
    uint32_t sum;
    for (int copy = 1; copy <= 2; copy++) {
        memcpy(winchester[copy], winchester[0], board.winchester_length);
        memcpy(floppy[copy], floppy[0], board.floppy_length);
    }
    answer_plainly();
    return disk_answers(&board.winchester, winchester[1], board.winchester_length, &board.floppy, floppy[1],
                        board.floppy_length, board.faults, board.fault_count, calls, CALLS, proved, CALLS, &none, &sum);
}

static bool answers_agree(unsigned number)
{
    for (unsigned i = 0; i < CALLS; i++)
        if (memcmp(&proved[i], &plain[i], sizeof proved[i]) != 0) {
            printf("board %u, call %u (kind %d, register %d, byte %02x): THE ANSWERS DIFFER\n", number, i, calls[i].kind,
                   calls[i].number, calls[i].byte);
            return false;
        }
    return true;
}

static unsigned long refused, failures, corrections;

/* what came up in the calls */
static void count(void)
{
    for (unsigned i = 1; i < CALLS; i++) {
        refused += plain[i].refusal != 0;
        failures += plain[i].error != 0 && plain[i - 1].error == 0;
        corrections += calls[i].kind == CALL_READ && calls[i].number == 7 && (plain[i].byte & 0x84) == 0x04;
    }
}

bool controllers_agree(void)
{
    for (unsigned number = 0; number < BOARDS; number++) {
        make_board();
        if (!answer_both() || !answers_agree(number))
            return false;
        if (memcmp(winchester[1], winchester[2], board.winchester_length) != 0
            || memcmp(floppy[1], floppy[2], board.floppy_length) != 0) {
            printf("board %u: THE IMAGES DIFFER\n", number);
            return false;
        }
        count();
    }
    printf("%d boards of either kind, %d calls each (%lu refused, %lu failures, %lu corrections): answers and images agree\n", BOARDS,
           CALLS, refused, failures, corrections);
    return true;
}
