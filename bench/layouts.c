/* Walks over the conflicts of tasks, whose records lie at random places: records that hang by pointers, as in the block
   of the book of forks, beside records that name each other by numbers. (A record of that book is three cells of 24 bytes.)

       cc -O2 -o /tmp/layouts bench/layouts.c && /tmp/layouts [records] [slots] [rounds] [repeats]

   Each layout gets the same conflicts, drawn by a seed, under the same numbers, which are dealt out at random: so the
   records of a slot's list are spread over the whole block. A round walks the lists of all slots, in an order drawn at
   random. A walk that reads asks for each record whether the slot at its other end has a mark, as the arbiter asks for a
   hungry neighbour; one that moves turns each fork to the other end and counts it, as a meal's end does. The layouts take
   turns, and of each the least processor time of the repeats is printed, in nanoseconds a record. */
#include <stdint.h>
#include <stdio.h>
#include <stdlib.h>
#include <time.h>

typedef struct { uint32_t id, first, second; uint8_t at_first, dirty, token_first, free; } Content; /* 16 bytes */

/* By pointers: 64 bytes. The place behind the last record stands for none. */
typedef struct Cell Cell;
typedef struct { Cell *previous, *next; } Hook;
struct Cell { Content content; Hook at_first, at_second, all; };

/* By numbers, each with a word that says whether there is one, as Rattle has them: 64 bytes. */
typedef struct { uint32_t some, id; } Maybe;
typedef struct { Maybe previous, next; } Pair;
typedef struct { Content content; Pair at_first, at_second, all; } Wide;

/* The same without the list of all: 48 bytes. */
typedef struct { Content content; Maybe previous_first, next_first, previous_second, next_second; } Node;

/* By numbers as short as can be, with the list of all: 40 bytes. */
enum { NONE = 0xffffffff };
typedef struct { uint32_t previous, next; } Short;
typedef struct { Content content; Short at_first, at_second, all; } Record;

static uint32_t records = 65535, slots = 4096;
static uint32_t *first_of, *held, *order;
static uint8_t *marks;
static Cell *cells;
static Node *nodes;
static Wide *wides;
static Record *shorts;

static uint64_t seed = 1;
static uint32_t draw(uint32_t below)
{
    seed ^= seed << 13; seed ^= seed >> 7; seed ^= seed << 17;
    return (uint32_t)((seed >> 33) % below);
}

static void shuffle(uint32_t *xs, uint32_t count)
{
    for (uint32_t i = count; 1 < i; i--) {
        uint32_t k = draw(i), x = xs[i - 1];
        xs[i - 1] = xs[k]; xs[k] = x;
    }
}

static void make(void)
{
    uint32_t *ids = malloc(records * sizeof *ids), *last = malloc(slots * sizeof *last);
    cells = malloc((records + 1) * sizeof *cells);
    nodes = malloc(records * sizeof *nodes);
    wides = malloc(records * sizeof *wides);
    shorts = malloc(records * sizeof *shorts);
    first_of = malloc(slots * sizeof *first_of);
    held = calloc(slots, sizeof *held);
    marks = calloc(slots, 1);
    order = malloc(slots * sizeof *order);
    for (uint32_t s = 0; s < slots; s++) { first_of[s] = last[s] = NONE; order[s] = s; }
    for (uint32_t i = 0; i < records; i++) ids[i] = i;
    shuffle(ids, records);
    shuffle(order, slots);
    Cell *none = cells + records;
    none->content = (Content){ records, 0, 0, 0, 0, 0, 0 };
    for (uint32_t i = 0; i < records; i++) {
        uint32_t id = ids[i], a = draw(slots), b = (a + 1 + draw(slots - 1)) % slots;
        Content c = { id, a, b, 0, 0, 0, 0 };
        cells[id] = (Cell){ c, { none, none }, { none, none }, { none, none } };
        nodes[id] = (Node){ c, { 0, 0 }, { 0, 0 }, { 0, 0 }, { 0, 0 } };
        wides[id] = (Wide){ c, { { 0, 0 }, { 0, 0 } }, { { 0, 0 }, { 0, 0 } }, { { 0, 0 }, { 0, 0 } } };
        shorts[id] = (Record){ c, { NONE, NONE }, { NONE, NONE }, { NONE, NONE } };
        for (int end = 0; end < 2; end++) {
            uint32_t s = end ? b : a, before = last[s];
            last[s] = id;
            if (before == NONE) { first_of[s] = id; continue; }
            int front = cells[before].content.first == s;
            *(front ? &cells[before].at_first.next : &cells[before].at_second.next) = cells + id;
            *(front ? &nodes[before].next_first : &nodes[before].next_second) = (Maybe){ 1, id };
            *(front ? &wides[before].at_first.next : &wides[before].at_second.next) = (Maybe){ 1, id };
            *(front ? &shorts[before].at_first.next : &shorts[before].at_second.next) = id;
        }
    }
    free(ids); free(last);
}

/* Each walk begins with the first record of the slot, and goes on as its layout does. */
#define FORK(c) do { int front = slot == (c)->first; uint32_t other = front ? (c)->second : (c)->first; \
    (c)->at_first = !front; (c)->dirty = 0; held[other]++; held[slot]--; } while (0)
#define READ(c) (sum += marks[slot == (c)->first ? (c)->second : (c)->first])

/* as a search goes: from cell to cell */
#define BY_PLACES(USE) \
    Cell *cell = first_of[slot] == NONE ? cells + records : cells + first_of[slot]; \
    while (cell->content.id < records) { USE(&cell->content); cell = slot == cell->content.first ? cell->at_first.next : cell->at_second.next; }

/* as the other walks go: the number of the next record is read behind the pointer */
#define BY_IDS_BEHIND(USE) \
    uint32_t id = first_of[slot] == NONE ? records : first_of[slot]; \
    while (id < records) { Cell *cell = cells + id; USE(&cell->content); \
        id = (slot == cell->content.first ? cell->at_first.next : cell->at_second.next)->content.id; }

#define BY_MAYBE(USE) \
    Maybe at = { first_of[slot] != NONE, first_of[slot] }; \
    while (at.some) { Node *node = nodes + at.id; USE(&node->content); at = slot == node->content.first ? node->next_first : node->next_second; }

#define BY_WIDE(USE) \
    Maybe at = { first_of[slot] != NONE, first_of[slot] }; \
    while (at.some) { Wide *wide = wides + at.id; USE(&wide->content); at = slot == wide->content.first ? wide->at_first.next : wide->at_second.next; }

#define BY_SHORT(USE) \
    uint32_t id = first_of[slot]; \
    while (id != NONE) { Record *record = shorts + id; USE(&record->content); id = slot == record->content.first ? record->at_first.next : record->at_second.next; }

#define WALK(NAME, BODY) static __attribute__((noinline)) uint32_t NAME(uint32_t slot) { uint32_t sum = 0; BODY; return sum; }
WALK(places_read, BY_PLACES(READ))
WALK(behind_read, BY_IDS_BEHIND(READ))
WALK(maybe_read, BY_MAYBE(READ))
WALK(wide_read, BY_WIDE(READ))
WALK(short_read, BY_SHORT(READ))
WALK(places_move, BY_PLACES(FORK))
WALK(behind_move, BY_IDS_BEHIND(FORK))
WALK(maybe_move, BY_MAYBE(FORK))
WALK(wide_move, BY_WIDE(FORK))
WALK(short_move, BY_SHORT(FORK))

static double now(void)
{
    struct timespec t;
    clock_gettime(CLOCK_PROCESS_CPUTIME_ID, &t);
    return t.tv_sec * 1e9 + t.tv_nsec;
}

int main(int count, char **words)
{
    uint32_t rounds = 20, repeats = 15;
    if (1 < count) records = (uint32_t)atoi(words[1]);
    if (2 < count) slots = (uint32_t)atoi(words[2]);
    if (3 < count) rounds = (uint32_t)atoi(words[3]);
    if (4 < count) repeats = (uint32_t)atoi(words[4]);
    struct { const char *name; uint32_t (*walk)(uint32_t); double least; } all[] = {
        { "reads, pointers, from cell to cell", places_read, 1e18 },
        { "reads, pointers, the number behind", behind_read, 1e18 },
        { "reads, numbers, 64 bytes", wide_read, 1e18 },
        { "reads, numbers, 48 bytes", maybe_read, 1e18 },
        { "reads, numbers, 40 bytes", short_read, 1e18 },
        { "moves, pointers, from cell to cell", places_move, 1e18 },
        { "moves, pointers, the number behind", behind_move, 1e18 },
        { "moves, numbers, 64 bytes", wide_move, 1e18 },
        { "moves, numbers, 48 bytes", maybe_move, 1e18 },
        { "moves, numbers, 40 bytes", short_move, 1e18 },
    };
    enum { WALKS = sizeof all / sizeof *all };
    uint32_t sum = 0;
    make();
    for (uint32_t k = 0; k < repeats; k++)
        for (int w = 0; w < WALKS; w++) {
            double before = now();
            for (uint32_t r = 0; r < rounds; r++)
                for (uint32_t s = 0; s < slots; s++) sum += all[w].walk(order[s]);
            double each = (now() - before) / (2.0 * records * rounds);
            if (each < all[w].least) all[w].least = each;
        }
    printf("%u records of %u slots, nanoseconds a record (%u)\n", records, slots, sum);
    for (int w = 0; w < WALKS; w++) printf("%-38s %7.2f\n", all[w].name, all[w].least);
    return 0;
}
