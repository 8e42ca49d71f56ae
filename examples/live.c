/* A station's program: feeds scan records to the calibrator as they come, and goes on after a stop.
 *
 *     live table.bin bias.bin state.bin [COUNT] <scans >>products
 *
 * Records of 4,648 bytes come from standard input, however they arrive; a shorter rest is one record, which is
 * refused with 4. The product of an accepted record, 8,706 bytes, is written to standard output before the next
 * record is read. A refused record gives a line on standard error, `record N offset B refused M`: it is the Nth of
 * this run's input, counted from 0, and begins at byte B of it. A line that cannot be written is lost, and the
 * program goes on. It goes on from state.bin if there is one, else it begins with a fresh state. With COUNT it
 * stops after so many records and has read nothing behind them.
 *
 * Stops. Whatever ends the program, state.bin is a whole state: a new one is written to state.bin.new, which
 * takes the name state.bin when its bytes are on the disk. A product is written, and is on the disk if standard
 * output is a file, before the state that has its scan. So a stop between the two leaves the state from before
 * the scan; the scan is fed again, and its product is written a second time, with the same bytes. In the other
 * order the product would be missed: the saved state would refuse the scan with 6. Waiting for the disk is meant
 * for scans as they come; an archive is calibrated faster by `sounder calibrate`.
 *
 * After a stop a station
 *   - cuts off what may stand behind the last whole product, with which the program refuses to start:
 *         truncate -s $(($(stat -c %s products) / 8706 * 8706)) products
 *   - starts the program with the same state.bin and feeds it the scans behind the last number that the state
 *     accepted (4 bytes at 1,422), or simply all scans of the pass from its first on: those up to this number are
 *     refused with 6, which changes nothing. A scan that is not fed again is a lost scan to the calibrator;
 *   - keeps one of two products with the same number (4 bytes at 3); they have the same bytes.
 *
 * Another table or bias file. A state has its table in it, at 14, and its bias file, at 3,326, and keeps both. If
 * table.bin or bias.bin has other bytes, the program says which and refuses to start: to go on would leave the new
 * file unused, and to begin anew would empty the window, both without a word. The station moves state.bin away and
 * feeds the accepted records of the last seven numbers once more in front, whose products it drops.
 *
 * A state has no checksum: a station guards state.bin against damage. One state.bin serves one running program.
 *
 * Bad streams. A record that is refused now and then is one lost scan. A row of refusals is another thing: bytes
 * were lost, and every record is cut at the wrong place and refused with 5; or a number was too high, and all that
 * follow it are refused with 6. So 16 refusals in a row, two windows of scans, make the stream a bad one, wherever
 * in the run they were. Refusals with 6 before the first accepted record of the run do not count, and end a row:
 * they are the scans that are fed again after a stop. Hence a stream of which nothing is accepted and all is
 * refused with 6 is not called bad, even if the number that is too high is that of state.bin; the run that
 * accepted this number called it so, if 16 records came behind it.
 *
 * The exit status is 0 when the input has ended or COUNT records were read, and 3 if the stream was bad; 1 where
 * the table or the bias file is refused, state.bin is no state or has another table or bias file, or a file of
 * products ends with a part of one; 2 where the arguments are wrong or something else than a line on standard
 * error cannot be read or written, or the library has states of another size. */
#define _POSIX_C_SOURCE 200809L

#include <errno.h>
#include <fcntl.h>
#include <limits.h>
#include <signal.h>
#include <stdio.h>
#include <stdlib.h>
#include <string.h>
#include <sys/stat.h>
#include <unistd.h>

#include "sounder.h"

/* Where the table and the bias file stand in a state. */
enum { TABLE_AT = 14, BIAS_AT = 3326 };

/* The answer to a number that is not above the last accepted one, and how many refusals in a row a bad stream has. */
enum { NOT_ABOVE = 6, BAD_ROW = 16 };

/* Ends the program: something cannot be read or written. */
static void failed(const char *name)
{
    perror(name);
    exit(2);
}

/* Reads until there are count bytes or no more come, and says how many there are. */
static size_t read_up_to(int file, const char *name, uint8_t *bytes, size_t count)
{
    size_t have = 0;
    while (have < count) {
        ssize_t more = read(file, bytes + have, count - have);
        if (more == 0) {
            break;
        }
        if (more > 0) {
            have += (size_t)more;
        } else if (errno != EINTR) {
            failed(name);
        }
    }
    return have;
}

/* Returns when all bytes are written, and are on the disk. A pipe has no disk, and fsync says so with EINVAL. */
static void write_all(int file, const char *name, const uint8_t *bytes, size_t count)
{
    size_t done = 0;
    while (done < count) {
        ssize_t more = write(file, bytes + done, count - done);
        if (more >= 0) {
            done += (size_t)more;
        } else if (errno != EINTR) {
            failed(name);
        }
    }
    if (fsync(file) != 0 && errno != EINVAL) {
        failed(name);
    }
}

/* The contents of a file, of which no more than room bytes are read; -1 where there is no such file. */
static long contents(const char *name, uint8_t *bytes, size_t room)
{
    int file = open(name, O_RDONLY);
    if (file < 0 && errno == ENOENT) {
        return -1;
    }
    if (file < 0) {
        failed(name);
    }
    size_t length = read_up_to(file, name, bytes, room);
    close(file);
    return (long)length;
}

/* Puts a state in the place of the one in the file. The folder itself is not synchronised: a loss of power may
 * bring back an older state, which is whole too, and then more than one product is written a second time. */
static void save(const char *name, const char *new_name, const uint8_t *state)
{
    int file = open(new_name, O_WRONLY | O_CREAT | O_TRUNC, 0666);
    if (file < 0) {
        failed(new_name);
    }
    write_all(file, new_name, state, SOUNDER_STATE_BYTES);
    if (close(file) != 0) {
        failed(new_name);
    }
    if (rename(new_name, name) != 0) {
        failed(name);
    }
}

/* The contents of a file that has to be there, of which no more than room bytes are read. */
static size_t needed(const char *name, uint8_t *bytes, size_t room)
{
    long length = contents(name, bytes, room);
    if (length < 0) {
        failed(name);
    }
    return (size_t)length;
}

/* Ends the program where a state has another table or bias file than the file. */
static void agrees(const char *state_name, const char *name, const char *what, const uint8_t *saved,
                   const uint8_t *bytes, size_t count)
{
    if (memcmp(saved, bytes, count) != 0) {
        fprintf(stderr, "%s: the state has another %s than %s; move it away to begin with a fresh one\n", state_name,
                what, name);
        exit(1);
    }
}

/* Begins with a fresh state, or goes on from the one in the file. */
static void begin(const char *table_name, const char *bias_name, const char *state_name, uint8_t *state)
{
    /* One byte more than is right, so that a longer file is seen. */
    static uint8_t table[SOUNDER_TABLE_BYTES + 1], bias[SOUNDER_BIAS_BYTES + 1], saved[SOUNDER_STATE_BYTES + 1];

    size_t table_length = needed(table_name, table, sizeof table);
    size_t bias_length = needed(bias_name, bias, sizeof bias);
    uint8_t refused = sounder_fresh(table, table_length, bias, bias_length, state, SOUNDER_STATE_BYTES);
    if (refused != 0) {
        /* The table is opened first, so the refusal is the bias file's only where the table is accepted. */
        int of_table = sounder_open(table, table_length) != 0;
        fprintf(stderr, "%s: the %s is refused with %u\n", of_table ? table_name : bias_name,
                of_table ? "table" : "bias file", refused);
        exit(1);
    }

    long length = contents(state_name, saved, sizeof saved);
    if (length < 0) {
        return;
    }
    /* Every state refuses an empty record with 4 and stays as it is, so this only asks whether it is one. */
    if (length != SOUNDER_STATE_BYTES || sounder_feed(saved, (size_t)length, NULL, 0, NULL, 0) == SOUNDER_NO_STATE) {
        fprintf(stderr, "%s: this is no state; move it away to begin with a fresh one\n", state_name);
        exit(1);
    }
    agrees(state_name, table_name, "table", saved + TABLE_AT, table, SOUNDER_TABLE_BYTES);
    agrees(state_name, bias_name, "bias file", saved + BIAS_AT, bias, SOUNDER_BIAS_BYTES);
    memcpy(state, saved, SOUNDER_STATE_BYTES);
}

int main(int argc, char **argv)
{
    static uint8_t state[SOUNDER_STATE_BYTES], record[SOUNDER_RECORD_BYTES], product[SOUNDER_PRODUCT_BYTES];
    static char new_name[PATH_MAX];

    /* A reader that goes away is an error of write: of a product the end, with a message, and of a line no matter. */
    signal(SIGPIPE, SIG_IGN);

    int counted = argc == 5 && argv[4][0] != '\0' && argv[4][strspn(argv[4], "0123456789")] == '\0';
    if (argc != 4 && !counted) {
        fprintf(stderr, "usage: %s table.bin bias.bin state.bin [COUNT] <scans >>products\n", argv[0]);
        return 2;
    }
    unsigned long long count = counted ? strtoull(argv[4], NULL, 10) : ULLONG_MAX;
    const char *state_name = argv[3];
    if (snprintf(new_name, sizeof new_name, "%s.new", state_name) >= (int)sizeof new_name) {
        errno = ENAMETOOLONG;
        failed(state_name);
    }
    if (sounder_state_size() != SOUNDER_STATE_BYTES) {
        fprintf(stderr, "the library has states of another size than sounder.h\n");
        return 2;
    }
    struct stat output;
    if (fstat(STDOUT_FILENO, &output) != 0) {
        failed("standard output");
    }
    if (S_ISREG(output.st_mode) && output.st_size % SOUNDER_PRODUCT_BYTES != 0) {
        fprintf(stderr, "standard output: cut off what stands behind the last whole product first\n");
        return 1;
    }

    begin(argv[1], argv[2], state_name, state);
    /* Where states cannot be saved, that is told before the first product. */
    save(state_name, new_name, state);

    int accepted = 0, bad = 0;
    unsigned long long row = 0;
    /* Behind a shorter rest nothing more is read, even if the input grows. */
    size_t length = sizeof record;
    for (unsigned long long number = 0; number < count && length == sizeof record; number++) {
        length = read_up_to(STDIN_FILENO, "standard input", record, sizeof record);
        if (length == 0) {
            break;
        }
        uint8_t answer = sounder_feed(state, sizeof state, record, length, product, sizeof product);
        if (answer == 0) {
            write_all(STDOUT_FILENO, "standard output", product, sizeof product);
            save(state_name, new_name, state);
            accepted = 1;
        } else {
            fprintf(stderr, "record %llu offset %llu refused %u\n", number, number * SOUNDER_RECORD_BYTES, answer);
        }
        row = answer == 0 || (answer == NOT_ABOVE && !accepted) ? 0 : row + 1;
        bad = bad || row == BAD_ROW;
    }
    return bad ? 3 : 0;
}
