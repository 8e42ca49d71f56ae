/* Which count of a channel would have given a stated temperature, by the means of the last accepted scan of a file:
 *
 *     count table.bin bias.bin scans.bin CHANNEL T
 *
 * CHANNEL is counted from 1, T is in units of 1/4096 K before scan bias. One line is printed: `channel 1 T 565394
 * count 15000`, or `channel 1 T 565395 no count`, or `channel 23 T 565394 refused 11`. A refused table or bias file
 * gives its line alone, with its name: `bias.bin refused 3`. Refused records are passed over: they change nothing.
 * The exit status is 1 after a refused table or bias file, 2 where something cannot be read, else 0. */
#include <stdio.h>
#include <stdlib.h>

#include "sounder.h"

/* Ends the program: something cannot be read. */
static void failed(const char *name)
{
    perror(name);
    exit(2);
}

static FILE *opened(const char *name)
{
    FILE *file = fopen(name, "rb");
    if (file == NULL) {
        failed(name);
    }
    return file;
}

/* Reads up to count bytes, and says how many there are. */
static size_t next(FILE *file, const char *name, uint8_t *bytes, size_t count)
{
    size_t length = fread(bytes, 1, count, file);
    if (ferror(file)) {
        failed(name);
    }
    return length;
}

/* The contents of a file, of which no more than room bytes are read. */
static size_t contents(const char *name, uint8_t *bytes, size_t room)
{
    FILE *file = opened(name);
    size_t length = next(file, name, bytes, room);
    fclose(file);
    return length;
}

/* The number that a word has: decimal digits, at most 4,294,967,295. */
static uint32_t number_of(const char *word)
{
    char *end;
    unsigned long long number = strtoull(word, &end, 10);
    if (word[0] < '0' || word[0] > '9' || *end != '\0' || number > UINT32_MAX) {
        fprintf(stderr, "%s: this is no number from 0 to 4294967295\n", word);
        exit(2);
    }
    return (uint32_t)number;
}

int main(int argc, char **argv)
{
    /* One byte more than is right, so that a longer file is seen. */
    static uint8_t table[SOUNDER_TABLE_BYTES + 1], bias[SOUNDER_BIAS_BYTES + 1];
    static uint8_t state[SOUNDER_STATE_BYTES], record[SOUNDER_RECORD_BYTES], product[SOUNDER_PRODUCT_BYTES];

    if (argc != 6) {
        fprintf(stderr, "usage: %s table.bin bias.bin scans.bin CHANNEL T\n", argv[0]);
        return 2;
    }
    uint32_t channel = number_of(argv[4]), wanted = number_of(argv[5]);

    size_t table_len = contents(argv[1], table, sizeof table);
    size_t bias_len = contents(argv[2], bias, sizeof bias);
    uint8_t refused = sounder_fresh(table, table_len, bias, bias_len, state, sizeof state);
    if (refused != 0) {
        /* The table is opened first, so the refusal is the bias file's only where the table is accepted. */
        printf("%s refused %u\n", sounder_open(table, table_len) != 0 ? argv[1] : argv[2], refused);
        return 1;
    }
    FILE *scans = opened(argv[3]);
    size_t length;
    while ((length = next(scans, argv[3], record, sizeof record)) > 0) {
        sounder_feed(state, sizeof state, record, length, product, sizeof product);
    }
    fclose(scans);

    uint16_t count;
    uint8_t answer = sounder_count_behind(state, sizeof state, channel, wanted, &count);
    printf("channel %lu T %lu ", (unsigned long)channel, (unsigned long)wanted);
    if (answer == 0) {
        printf("count %u\n", count);
    } else if (answer == SOUNDER_NO_COUNT) {
        printf("no count\n");
    } else {
        printf("refused %u\n", answer);
    }
    return 0;
}
