/* Feeds a file of scan records to the calibrator in one call and prints a line for each: `listing table.bin bias.bin
 * scans.bin`. The line of an accepted record is that of the listing program; that of a refused one names the
 * record, counted from 0, and where it begins in the file: `record 1 offset 4648 refused 6`. A refused table or bias
 * file gives its line alone, with its name: `bias.bin refused 3`. */
#include <stdio.h>
#include <stdlib.h>

#include "sounder.h"

/* The whole file; ends the program where it cannot be read. */
static uint8_t *contents(const char *name, size_t *size)
{
    FILE *file = fopen(name, "rb");
    if (file == NULL || fseek(file, 0, SEEK_END) != 0) {
        perror(name);
        exit(2);
    }
    *size = (size_t)ftell(file);
    rewind(file);
    uint8_t *bytes = malloc(*size + 1);
    if (bytes == NULL || fread(bytes, 1, *size, file) != *size) {
        perror(name);
        exit(2);
    }
    fclose(file);
    return bytes;
}

static unsigned u16_at(const uint8_t *bytes)
{
    return bytes[0] * 256u + bytes[1];
}

/* The number, the delivered scenes of all channels (field 0x23) and the flags (field 0x21) of a product. */
static void print_product(const uint8_t *product)
{
    unsigned delivered = 0;
    for (int channel = 0; channel < 22; channel++) {
        delivered += u16_at(product + 8486 + 10 * channel);
    }
    uint32_t number = (uint32_t)u16_at(product + 3) * 65536u + u16_at(product + 5);
    printf("scan %lu delivered %u flags ", (unsigned long)number, delivered);
    for (int channel = 0; channel < 22; channel++) {
        printf("%u", product[10 + channel]);
    }
    printf("\n");
}

int main(int argc, char **argv)
{
    if (argc != 4) {
        fprintf(stderr, "usage: %s table.bin bias.bin scans.bin\n", argv[0]);
        return 2;
    }
    size_t table_len, bias_len, records_len;
    uint8_t *table = contents(argv[1], &table_len);
    uint8_t *bias = contents(argv[2], &bias_len);
    uint8_t *records = contents(argv[3], &records_len);

    /* A shorter rest is a record too; it is refused with 4. */
    size_t count = (records_len + SOUNDER_RECORD_BYTES - 1) / SOUNDER_RECORD_BYTES;
    uint32_t *record_lengths = malloc((count + 1) * sizeof *record_lengths);
    uint32_t *buffer_lengths = malloc((count + 1) * sizeof *buffer_lengths);
    uint8_t *buffers = malloc(count * SOUNDER_PRODUCT_BYTES + 1);
    uint8_t *answers = malloc(count + 1);
    if (!record_lengths || !buffer_lengths || !buffers || !answers) {
        perror("malloc");
        return 2;
    }
    for (size_t i = 0; i < count; i++) {
        size_t left = records_len - i * SOUNDER_RECORD_BYTES;
        record_lengths[i] = left < SOUNDER_RECORD_BYTES ? (uint32_t)left : SOUNDER_RECORD_BYTES;
        buffer_lengths[i] = SOUNDER_PRODUCT_BYTES;
    }

    uint8_t refused = sounder_feed_all(table, table_len, bias, bias_len, records, records_len, record_lengths, count,
                                       buffers, count * SOUNDER_PRODUCT_BYTES, buffer_lengths, count, answers, count);
    if (refused != 0) {
        /* The table is opened first, so the refusal is the bias file's only where the table is accepted. */
        printf("%s refused %u\n", sounder_open(table, table_len) != 0 ? argv[1] : argv[2], refused);
        return 1;
    }
    for (size_t i = 0; i < count; i++) {
        if (answers[i] == 0) {
            print_product(buffers + i * SOUNDER_PRODUCT_BYTES);
        } else {
            printf("record %zu offset %zu refused %u\n", i, i * SOUNDER_RECORD_BYTES, answers[i]);
        }
    }
    free(table);
    free(bias);
    free(records);
    free(record_lengths);
    free(buffer_lengths);
    free(buffers);
    free(answers);
    return 0;
}
