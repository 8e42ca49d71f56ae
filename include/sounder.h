/* The sounder calibrator for C, C++ and Fortran: raw counts of a microwave sounder become brightness
 * temperatures. Link with libstation.a or libstation.so, which `make lib` builds and `make install` installs
 * (x86-64 Linux).
 *
 * docs/RULES.md has the formats of tables, bias files, scan records, products and states and all rules. Every
 * function answers every input, keeps nothing between calls and allocates nothing, so that any number of
 * threads may call it, each with buffers of its own; a call takes less than 72 KiB of stack. No function writes
 * past what is named here.
 *
 * A pointer and the count behind it are one argument; the pointer may be null where the count is 0. What is
 * written must not overlap anything else that the same call is given.
 */
#ifndef SOUNDER_H
#define SOUNDER_H

#include <stddef.h>
#include <stdint.h>

#ifdef __cplusplus
extern "C" {
#endif

/* The version of this header, as text and as the number 10000 * major + 100 * minor + patch. */
#define SOUNDER_VERSION "6.1.0"
#define SOUNDER_VERSION_NUMBER 60100

enum {
    SOUNDER_TABLE_BYTES = 1404,
    SOUNDER_BIAS_BYTES = 8451,
    SOUNDER_RECORD_BYTES = 4648,
    SOUNDER_PRODUCT_BYTES = 8706,
    /* What sounder_state_size gives. */
    SOUNDER_STATE_BYTES = 12576,
    /* The answer of sounder_count_behind where no count fits. */
    SOUNDER_NO_COUNT = 253,
    /* The answer where the bytes are no state, or where a state has no room. */
    SOUNDER_NO_STATE = 254,
    /* In answers: a feed that was not fed, since a length or bytes were missing. */
    SOUNDER_NOT_FED = 255
};

/* The version of the library, in the form of SOUNDER_VERSION_NUMBER. A program serves with every library of the
 * same major version that is not older than the header that it was compiled with. */
uint32_t sounder_version(void);

/* Opens a table: 0 if it is accepted, or 1 (its length), 2 (a tag or length in it), 3 (a value or sum
 * outside its range). */
uint8_t sounder_open(const uint8_t *table, size_t table_len);

/* Opens a bias file, which has the scan bias of each channel and position: 0 if it is accepted, or 1 (its length),
 * 2 (the tag or length in it), 3 (a c0 outside its range). A file of zeros behind the first three bytes changes no
 * temperature. */
uint8_t sounder_open_bias(const uint8_t *bias, size_t bias_len);

/* One thermometer, from the table's values (R_PAM, and R0, alpha, delta, beta of the thermometer) and the
 * record's counts: 0 and, in *t, the temperature in units of 1/4096 degree Celsius; or 8 (R_PAM or a
 * coefficient outside its range), 9 (pam not above offset), 10 (no temperature for the count), and *t stays
 * as it was. t is not null. */
uint8_t sounder_thermometer(uint32_t r_pam, uint32_t r0, uint32_t alpha, uint32_t delta, uint32_t beta,
                            uint16_t pam, uint16_t offset, uint16_t count, int32_t *t);

/* Opens the table and the bias file and feeds a fresh calibrator a list of scan records: 0, or the table's refusal
 * (1 to 3), then the bias file's (1 to 3), which write nothing. sounder_open tells whether it is the table's.
 *
 * Feed i takes the next record_lengths[i] bytes of records and the next buffer_lengths[i] bytes of buffers.
 * answers[i] is 0 if the record is accepted, and its product then stands in the first 8,706 bytes of its
 * buffer; or 4 (the record's length), 5 (a tag or length in it), 6 (its number isn't above the last accepted
 * one), 7 (its buffer is below 8,706 bytes), and its buffer stays as it was.
 *
 * From the first i at which a list of lengths has ended, or records or buffers have fewer bytes left than
 * its length says, nothing more is fed, and every further answers[i] is 255 (SOUNDER_NOT_FED). */
uint8_t sounder_feed_all(const uint8_t *table, size_t table_len,
                         const uint8_t *bias, size_t bias_len,
                         const uint8_t *records, size_t records_len,
                         const uint32_t *record_lengths, size_t record_count,
                         uint8_t *buffers, size_t buffers_len,
                         const uint32_t *buffer_lengths, size_t buffer_count,
                         uint8_t *answers, size_t answer_count);

/* ---- Scan by scan: the calibrator is a state in the caller's memory.
 *
 * A state is 12,576 bytes, big-endian, with a magic number and a version at its front; docs/RULES.md has its
 * layout. It may be copied, saved, and read on another machine: a run over a list of records through states
 * gives what one call of sounder_feed_all gives. Bytes behind the 12,576 are not looked at and stay as they
 * were. */

/* How many bytes a state has: SOUNDER_STATE_BYTES. */
size_t sounder_state_size(void);

/* Opens the table and the bias file and writes the state of a fresh calibrator: 0; or the table's refusal (1 to 3),
 * then the bias file's (1 to 3), then 254 (SOUNDER_NO_STATE) where state_len is below 12,576. A refusal writes
 * nothing. The table and the bias file are in the state, and are not needed again. */
uint8_t sounder_fresh(const uint8_t *table, size_t table_len,
                      const uint8_t *bias, size_t bias_len,
                      uint8_t *state, size_t state_len);

/* Feeds one scan record to the calibrator of a state: 0, and the product stands in the first 8,706 bytes of
 * buffer and the calibrator after it in state; or 254 (SOUNDER_NO_STATE) where the bytes are no state: fewer
 * than 12,576, a wrong front, a table or bias file that would be refused, a value out of its range; then 4 to 7 as
 * in sounder_feed_all. A refusal writes nothing. */
uint8_t sounder_feed(uint8_t *state, size_t state_len, const uint8_t *record, size_t record_len,
                     uint8_t *buffer, size_t buffer_len);

/* The count behind a temperature, by the means, the flags and the shelf temperatures of the last accepted scan: 0
 * and, in *count, the count from 0 to 65,535 whose scene in this channel, counted from 1, is delivered with just the
 * temperature wanted, in units of 1/4096 K before scan bias; or 254 (SOUNDER_NO_STATE) where the bytes are no state,
 * as in sounder_feed; then 11 (channel isn't 1 to 22), 12 (no scan was accepted, or the channel's flag in the last
 * one isn't 0), 253 (SOUNDER_NO_COUNT) where no count fits, and *count stays as it was. Of two delivered counts the
 * higher has the higher temperature, so that no second count fits. count is not null. The state is only read. */
uint8_t sounder_count_behind(const uint8_t *state, size_t state_len, uint32_t channel, uint32_t wanted,
                             uint16_t *count);

#ifdef __cplusplus
}
#endif

#endif
