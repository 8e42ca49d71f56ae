/* How much stack each function of the library takes: each is called on a thread whose stack was filled before, and what is no longer as it was
 * filled, from the call down, is what it took. Arguments: table, bias file, records. Prints a line for each call, with its answer. */
#include <pthread.h>
#include <stdio.h>
#include <stdlib.h>
#include <string.h>

#include "sounder.h"

enum { STACK = 1 << 20, SPARE = 512, FILL = 0xA5, MOST = 1000 };

struct file {
    uint8_t *bytes;
    size_t length;
};

static struct file table, bias, records;
static uint8_t state[SOUNDER_STATE_BYTES], products[MOST * SOUNDER_PRODUCT_BYTES], answers[MOST];
static uint32_t lengths[MOST], rooms[MOST];
static size_t count;
static int32_t t;
static uint16_t behind;

static unsigned all(void)
{
    return sounder_feed_all(table.bytes, table.length, bias.bytes, bias.length, records.bytes, records.length, lengths, count, products,
                            count * SOUNDER_PRODUCT_BYTES, rooms, count, answers, count);
}

static unsigned fresh(void)
{
    return sounder_fresh(table.bytes, table.length, bias.bytes, bias.length, state, sizeof state);
}

static unsigned feed(void)
{
    return sounder_feed(state, sizeof state, records.bytes, SOUNDER_RECORD_BYTES, products, SOUNDER_PRODUCT_BYTES);
}

static unsigned count_behind(void)
{
    return sounder_count_behind(state, sizeof state, 1, 565394, &behind);
}

static unsigned open_table(void)
{
    return sounder_open(table.bytes, table.length);
}

static unsigned open_bias(void)
{
    return sounder_open_bias(bias.bytes, bias.length);
}

static unsigned thermometer(void)
{
    return sounder_thermometer(2000000, 2000000, 3850000, 1500000, 500000, 20000, 0, 19000, &t);
}

/* In the order in which they can be called: a state is made, fed, asked, and fed a scan that it refuses. */
static const struct {
    const char *name;
    unsigned (*call)(void);
} calls[] = {{"sounder_open", open_table}, {"sounder_open_bias", open_bias}, {"sounder_thermometer", thermometer},
             {"sounder_feed_all", all},    {"sounder_fresh", fresh},         {"sounder_feed", feed},
             {"sounder_count_behind", count_behind}, {"sounder_feed", feed}};

static uint8_t *stack;
static size_t which, taken;
static unsigned answer;

static void *measured(void *unused)
{
    /* A register's worth of the frame that calls; what lies below it is filled, but for the last bytes, which memset itself may use. */
    volatile uint8_t here = 0;
    uint8_t *top = (uint8_t *)&here;
    size_t room = (size_t)(top - stack) - SPARE;
    memset(stack, FILL, room);
    answer = calls[which].call();
    size_t untouched = 0;
    while (untouched < room && stack[untouched] == FILL) {
        untouched++;
    }
    taken = (size_t)(top - stack) - untouched;
    return unused;
}

static struct file contents(const char *name)
{
    FILE *file = fopen(name, "rb");
    struct file read = {malloc(MOST * SOUNDER_RECORD_BYTES), 0};
    if (file == NULL || read.bytes == NULL) {
        perror(name);
        exit(1);
    }
    read.length = fread(read.bytes, 1, MOST * SOUNDER_RECORD_BYTES, file);
    fclose(file);
    return read;
}

int main(int argc, char **argv)
{
    if (argc != 4) {
        fprintf(stderr, "usage: stack TABLE BIAS RECORDS\n");
        return 2;
    }
    table = contents(argv[1]);
    bias = contents(argv[2]);
    records = contents(argv[3]);
    count = records.length / SOUNDER_RECORD_BYTES;
    for (size_t i = 0; i < count; i++) {
        lengths[i] = SOUNDER_RECORD_BYTES;
        rooms[i] = SOUNDER_PRODUCT_BYTES;
    }
    for (which = 0; which < sizeof calls / sizeof calls[0]; which++) {
        pthread_attr_t attributes;
        pthread_t thread;
        stack = aligned_alloc(4096, STACK);
        if (stack == NULL || pthread_attr_init(&attributes) != 0 || pthread_attr_setstack(&attributes, stack, STACK) != 0 ||
            pthread_create(&thread, &attributes, measured, NULL) != 0 || pthread_join(thread, NULL) != 0) {
            fprintf(stderr, "stack: no thread with a stack of its own\n");
            return 1;
        }
        printf("%s %u %zu\n", calls[which].name, answer, taken);
        free(stack);
    }
    return 0;
}
