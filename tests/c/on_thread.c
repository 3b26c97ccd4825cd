/*
 * Makes one call of gannetrope_judge on a thread of its own, through the header alone:
 *
 *     on_thread KIND W NODES VALUES LENGTH1 LENGTH2 < BYTES
 *
 * KIND is refused, small or large: the calls for which the thread has the stack that the header asks for. BYTES are
 * list 1, list 2 and the schedule. It prints the report as the verdict program does, then the bytes of stack that the
 * call used and those that there were. A call that needs more ends the process.
 */
#define _DEFAULT_SOURCE
#include <inttypes.h>
#include <pthread.h>
#include <stdio.h>
#include <stdlib.h>
#include <string.h>
#include <sys/mman.h>

#include "gannetrope.h"

#define ARGUMENTS 6
#define KINDS 3
#define DECIMAL 10
#define MOST_BYTES 65536
/* one slot more than the library takes */
#define MOST_SLOTS 65537
/* Memory below the stack that nothing may touch: more than any frame could reach past. */
#define GUARD ((size_t)64 << 20)
/* What the stack is filled with before the call. */
#define PAINT 0xa5

/* The refusals that say after how many steps they came. */
#define OUT_OF_WIDTH 13
#define OUT_OF_ROOM 14

static const struct kind {
    const char *name;
    size_t stack;
} kinds[KINDS] = {
    {"refused", GANNETROPE_STACK_REFUSED},
    {"small", GANNETROPE_STACK_SMALL},
    {"large", GANNETROPE_STACK_LARGE},
};

struct store {
    uint32_t level[MOST_SLOTS], low[MOST_SLOTS], high[MOST_SLOTS];
    int32_t a[MOST_SLOTS], b[MOST_SLOTS], c[MOST_SLOTS], d[MOST_SLOTS];
};

/* What the call is given. */
static size_t stack_size, nodes, values, length1, length2, length;
static uint32_t width;
static uint8_t bytes[MOST_BYTES];
static uint8_t *stack;

/* What it writes to, and what it used. */
static struct store first, second;
static uint64_t numbers[GANNETROPE_NUMBERS];
static int32_t entries[GANNETROPE_ENTRIES];
static uint32_t status;
static size_t used;

static void give_up(const char *what) {
    fprintf(stderr, "on_thread: %s failed\n", what);
    exit(EXIT_FAILURE);
}

static size_t number(const char *argument) {
    return (size_t)strtoull(argument, NULL, DECIMAL);
}

static size_t stack_for(const char *name) {
    size_t kind = 0;
    while (kind < KINDS && strcmp(name, kinds[kind].name) != 0)
        kind++;
    if (kind == KINDS)
        give_up("finding the kind");
    return kinds[kind].stack;
}

static void read_call(char **arguments) {
    stack_size = stack_for(arguments[0]);
    width = (uint32_t)number(arguments[1]);
    nodes = number(arguments[2]);
    values = number(arguments[3]);
    length1 = number(arguments[4]);
    length2 = number(arguments[5]);
    length = fread(bytes, 1, sizeof bytes, stdin);
    if (nodes > MOST_SLOTS || values > MOST_SLOTS || length1 + length2 > length)
        give_up("reading the call");
}

static uint32_t judge(void) {
    const uint8_t *list2 = bytes + length1, *schedule = list2 + length2;
    struct store *one = &first, *two = &second;
    return gannetrope_judge(bytes, length1, list2, length2, schedule, length - length1 - length2, width,
                            one->level, nodes, one->low, nodes, one->high, nodes,
                            one->a, values, one->b, values, one->c, values, one->d, values,
                            two->level, nodes, two->low, nodes, two->high, nodes,
                            two->a, values, two->b, values, two->c, values, two->d, values,
                            numbers, GANNETROPE_NUMBERS, entries, GANNETROPE_ENTRIES);
}

/* The stack grows down: what the call used lies between here and the paint that is left. */
static void *run(void *unused) {
    volatile uint8_t here = 0;
    const uint8_t *lowest = stack;
    status = judge();
    while (*lowest == PAINT)
        lowest++;
    used = (size_t)((const volatile uint8_t *)&here - lowest);
    return unused;
}

static void paint_stack(void) {
    uint8_t *memory = mmap(NULL, GUARD + stack_size, PROT_NONE, MAP_PRIVATE | MAP_ANONYMOUS, -1, 0);
    if (memory == MAP_FAILED)
        give_up("mmap");
    stack = memory + GUARD;
    if (mprotect(stack, stack_size, PROT_READ | PROT_WRITE) != 0)
        give_up("mprotect");
    memset(stack, PAINT, stack_size);
}

static void run_on_thread(void) {
    pthread_attr_t attributes;
    pthread_t thread;
    if (pthread_attr_init(&attributes) != 0 || pthread_attr_setstack(&attributes, stack, stack_size) != 0
        || pthread_create(&thread, &attributes, run, NULL) != 0 || pthread_join(thread, NULL) != 0)
        give_up("pthread");
}

static void print_entry(const char *name, size_t slot) {
    const int32_t *entry = entries + slot;
    printf(" %s %" PRId32 " %" PRId32 " %" PRId32 " %" PRId32, name, entry[0], entry[1], entry[2], entry[3]);
}

static void print_number(const char *name, size_t slot) {
    printf(" %s %" PRIu64, name, numbers[slot]);
}

static void print_refusal(void) {
    const uint64_t refusal = numbers[GANNETROPE_REFUSAL];
    printf("refused %" PRIu64, refusal);
    if (numbers[GANNETROPE_LIST] != 0) {
        print_number("list", GANNETROPE_LIST);
        print_number("byte", GANNETROPE_OFFSET);
    } else if (refusal == OUT_OF_WIDTH || refusal == OUT_OF_ROOM) {
        print_number("steps", GANNETROPE_REFUSED_AFTER);
    }
}

static void print_verdict(void) {
    if (numbers[GANNETROPE_KIND] == GANNETROPE_EQUAL) {
        printf("equal");
        print_entry("factor", GANNETROPE_ENTRY);
    } else {
        printf("different");
        print_number("row", GANNETROPE_ROW);
        print_number("column", GANNETROPE_COLUMN);
        print_entry("entry", GANNETROPE_ENTRY);
        print_entry("corner", GANNETROPE_CORNER);
    }
    print_number("exponent", GANNETROPE_EXPONENT);
    print_number("steps", GANNETROPE_STEPS);
    print_number("nodes", GANNETROPE_NODES);
    print_number("values", GANNETROPE_VALUES);
}

int main(int count, char **arguments) {
    if (count != ARGUMENTS + 1)
        give_up("reading the call");
    read_call(arguments + 1);
    paint_stack();
    run_on_thread();
    if (status != 0)
        give_up("the call");
    if (numbers[GANNETROPE_KIND] == GANNETROPE_REFUSED)
        print_refusal();
    else
        print_verdict();
    printf("\n%zu %zu\n", used, stack_size);
    return 0;
}
