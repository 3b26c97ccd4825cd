/* Calls the library through its header, and prints what it gives. */
#include <inttypes.h>
#include <stdio.h>
#include <string.h>

#include "gannetrope.h"

#define NODES 16
#define VALUES 8

struct store {
    uint32_t level[NODES], low[NODES], high[NODES];
    int32_t a[VALUES], b[VALUES], c[VALUES], d[VALUES];
};

/* All that a call writes to, with one slot more than it needs. */
struct lent {
    struct store first, second;
    uint64_t numbers[GANNETROPE_NUMBERS + 1];
    int32_t entries[GANNETROPE_ENTRIES + 1];
};

static struct lent lent, untouched;

/* two qubits: CNOT 0 1; H 1, CZ 0 1, H 1; CNOT 1 0; CNOT 0 1, H 0, H 1; Toffoli with one control */
static const uint8_t cnot[] = {2, 1, 8, 0, 1};
static const uint8_t by_cz[] = {2, 3, 3, 1, 9, 0, 1, 3, 1};
static const uint8_t turned[] = {2, 1, 8, 1, 0};
static const uint8_t with_h[] = {2, 3, 8, 0, 1, 3, 0, 3, 1};
static const uint8_t few[] = {2, 1, 10, 1, 1};
static const uint8_t schedule[] = {0, 1, 1, 1};

/* Judges the first list against another one, in stores that hold something. */
static uint32_t judge(const uint8_t *list2, size_t length, size_t steps, size_t numbers, size_t entries) {
    struct store *one = &lent.first, *two = &lent.second;
    lent = untouched;
    return gannetrope_judge(cnot, sizeof cnot, list2, length, schedule, steps, 32,
                            one->level, NODES, one->low, NODES, one->high, NODES,
                            one->a, VALUES, one->b, VALUES, one->c, VALUES, one->d, VALUES,
                            two->level, NODES, two->low, NODES, two->high, NODES,
                            two->a, VALUES, two->b, VALUES, two->c, VALUES, two->d, VALUES,
                            lent.numbers, numbers, lent.entries, entries);
}

static const char *kept(const void *now, const void *before, size_t size) {
    return memcmp(now, before, size) == 0 ? "kept" : "written";
}

static void print_report(const char *name, uint32_t status) {
    size_t slot;
    printf("%s: status %" PRIu32 "\n", name, status);
    if (status == 0) {
        printf("  numbers");
        for (slot = 0; slot < GANNETROPE_NUMBERS; slot++)
            printf(" %" PRIu64, lent.numbers[slot]);
        printf("\n  entries");
        for (slot = 0; slot < GANNETROPE_ENTRIES; slot++)
            printf(" %" PRId32, lent.entries[slot]);
        printf("\n");
    } else {
        printf("  numbers %s, entries %s\n", kept(lent.numbers, untouched.numbers, sizeof lent.numbers),
               kept(lent.entries, untouched.entries, sizeof lent.entries));
    }
    printf("  slots past the report %s, %s; stores %s, %s\n",
           kept(&lent.numbers[GANNETROPE_NUMBERS], &untouched.numbers[GANNETROPE_NUMBERS], sizeof lent.numbers[0]),
           kept(&lent.entries[GANNETROPE_ENTRIES], &untouched.entries[GANNETROPE_ENTRIES], sizeof lent.entries[0]),
           kept(&lent.first, &untouched.first, sizeof lent.first),
           kept(&lent.second, &untouched.second, sizeof lent.second));
}

static void print_first_store(void) {
    const struct store *store = &lent.first;
    size_t slot;
    for (slot = 0; slot < lent.numbers[GANNETROPE_NODES]; slot++)
        printf("  node %" PRIu32 " %" PRIu32 " %" PRIu32 "\n", store->level[slot], store->low[slot], store->high[slot]);
    for (slot = 0; slot < lent.numbers[GANNETROPE_VALUES]; slot++)
        printf("  value %" PRId32 " %" PRId32 " %" PRId32 " %" PRId32 "\n", store->a[slot], store->b[slot],
               store->c[slot], store->d[slot]);
}

static void print_schedule(uint32_t m, uint32_t p, size_t length) {
    uint8_t buffer[8];
    size_t step;
    memset(buffer, 9, sizeof buffer);
    printf("schedule of %" PRIu32 " and %" PRIu32 ": %" PRIu32 ",", m, p, gannetrope_schedule(m, p, buffer, length));
    for (step = 0; step < sizeof buffer; step++)
        printf(" %d", buffer[step]);
    printf("\n");
}

static void print_inverse(const uint8_t *list, size_t list_length, size_t length, size_t slots) {
    uint8_t buffer[12];
    uint64_t numbers[GANNETROPE_WRITER_NUMBERS + 1];
    size_t slot;
    memset(buffer, 9, sizeof buffer);
    for (slot = 0; slot <= GANNETROPE_WRITER_NUMBERS; slot++)
        numbers[slot] = 8;
    printf("inverse: status %" PRIu32 ",", gannetrope_inverse(list, list_length, buffer, length, numbers, slots));
    for (slot = 0; slot <= GANNETROPE_WRITER_NUMBERS; slot++)
        printf(" %" PRIu64, numbers[slot]);
    printf(",");
    for (slot = 0; slot < sizeof buffer; slot++)
        printf(" %d", buffer[slot]);
    printf("\n");
}

int main(void) {
    static const uint8_t undone[] = {2, 3, 6, 1, 8, 0, 1, 3, 0};
    /* three qubits: Toffoli with controls 0 and 1 onto 2, Fredkin with control 0 of 2 and 1 */
    static const uint8_t masks[] = {3, 2, 10, 3, 2, 11, 1, 2, 1};
    const size_t writer = GANNETROPE_WRITER_NUMBERS;
    const size_t numbers = GANNETROPE_NUMBERS, entries = GANNETROPE_ENTRIES;
    memset(&untouched, 0x55, sizeof untouched);

    print_report("equal", judge(by_cz, sizeof by_cz, 4, numbers, entries));
    print_first_store();
    print_report("different, longer slots", judge(turned, sizeof turned, 2, numbers + 1, entries + 1));
    print_report("different by two H", judge(with_h, sizeof with_h, 4, numbers, entries));
    printf("  exponent %" PRIu64 "\n", lent.numbers[GANNETROPE_EXPONENT]);
    print_report("list 2 cut", judge(turned, sizeof turned - 1, 2, numbers, entries));
    print_report("too few controls", judge(few, sizeof few, 2, numbers, entries));
    print_report("schedule too long", judge(turned, sizeof turned, 3, numbers, entries));
    print_report("numbers too short", judge(by_cz, sizeof by_cz, 4, numbers - 1, entries));
    print_report("entries too short", judge(by_cz, sizeof by_cz, 4, numbers, entries - 1));
    print_schedule(2, 4, 8);
    print_schedule(4097, 0, 8);
    print_schedule(2, 4, 5);
    print_inverse(undone, sizeof undone, 12, writer);
    print_inverse(undone, sizeof undone, sizeof undone, writer + 1);
    print_inverse(undone, sizeof undone, sizeof undone - 1, writer);
    print_inverse(undone, sizeof undone - 1, 12, writer);
    print_inverse(undone, sizeof undone, 12, writer - 1);
    print_inverse(masks, sizeof masks, 12, writer);
    print_inverse(few, sizeof few, 12, writer);
    return 0;
}
