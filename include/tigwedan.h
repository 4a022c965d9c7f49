/* Tigwedan, a radio channel emulator: recordings opened, and the standard chain played over them.
 *
 * Link crates/capi/out/libcapi.a, which `rt lib` in crates/capi proves and builds, and the kit's c/liblibc_c.a behind it.
 *
 * No call keeps anything: each takes what it needs, and a run is the same in every bit whenever it is made. Any numbers and
 * any bytes may be handed in; a pointer must be valid for its length, and the buffers of one call must not overlap. With
 * length 0 a pointer must still not be NULL. The calls that read text allocate by malloc and free all of it again. They
 * must not be called from a signal handler.
 */
#ifndef TIGWEDAN_H
#define TIGWEDAN_H

#include <stddef.h>
#include <stdint.h>

#ifdef __cplusplus
extern "C" {
#endif

/* What a call answers. A refused call leaves its buffer as it was; its report tells the input and the place. */
enum tigwedan_status {
    TIGWEDAN_DONE = 0,
    /* A line of the settings is refused; report.place is the line, counted from 1. */
    TIGWEDAN_SCALE = 1,           /* the scale factor is outside 1 to 32767 */
    TIGWEDAN_GAIN = 2,            /* a shift is outside -32 to 18, or a factor outside 128 to 255 */
    TIGWEDAN_PATHS = 3,           /* there are not 1 to 10 paths, or a delay is over 63 */
    TIGWEDAN_TABLE = 4,           /* the amplifier's table has not 513 entries, or an amplitude over 32767 */
    TIGWEDAN_CLOCK = 5,           /* the clock offset is beyond 9007199254740, up or down */
    TIGWEDAN_SEED = 6,            /* a noise seed is 0 */
    TIGWEDAN_FREQUENCY = 7,       /* the frequency offset is outside -2^47 to 2^47 - 1 */
    TIGWEDAN_INDEX = 13,          /* the index of a receive gain is over 127 */
    /* A recording does not open; report.place is the byte where the refused head, chunk or field begins. */
    TIGWEDAN_TOO_SHORT = 8,       /* fewer bytes than the head, a chunk's head or a chunk needs */
    TIGWEDAN_WRONG_HEAD = 9,      /* a wrong mark or length in the first 12 bytes */
    TIGWEDAN_WRONG_FIELD = 10,    /* a field of the format, or the data's size, is not as it must be */
    TIGWEDAN_NO_FORMAT = 11,      /* the data stands before the format */
    /* The call itself cannot be carried out. */
    TIGWEDAN_UNKNOWN_KIND = 64,   /* there is no such kind of recording */
    TIGWEDAN_WRONG_LINE = 65,     /* a line is no setting, or no call; report.place is the line, counted from 1 */
    TIGWEDAN_MEMORY = 66,         /* there is not enough memory */
    TIGWEDAN_ROOM = 67            /* the buffer is too short; report.place is the number of bytes that it needs */
};

/* What is handed in, as report.input names it: a recording by a number up to 255, by which its faults name it too, a text by
 * a number from 256 on. Signal and gain are also the kinds of recording. */
enum tigwedan_input {
    TIGWEDAN_SIGNAL = 0,          /* 12-bit I/Q samples */
    TIGWEDAN_GAINS = 1,           /* receive gain indices, 0 to 127 */
    TIGWEDAN_SETTINGS = 256,
    TIGWEDAN_CALLS = 257
};

/* With which fault the items of a recording end, as report.fault has it. */
enum tigwedan_fault {
    TIGWEDAN_NO_FAULT = 0,
    TIGWEDAN_LOW_BITS = 12,       /* the low four bits of a part are not 0 */
    TIGWEDAN_GAIN_OVER = 13       /* a gain byte is over 127 */
};

/* Fields that a call has nothing to tell of are 0. */
struct tigwedan_report {
    uint32_t rate;                /* samples a second: of the signal, or of what was opened */
    uint32_t ended;               /* 1 if the end of the items was met, else 0 */
    uint32_t fault;               /* the fault with which they end, or 0 */
    uint32_t input;               /* the input that has the fault, or that is refused; 0 also where none is meant */
    uint64_t items;               /* items counted, samples placed or bytes written */
    uint64_t item;                /* the place of the fault's item in its input, from 0 */
    uint64_t place;               /* of a refusal: a byte's place, a line, or a number of bytes */
};

/* A converter sample; both parts are -2048 to 2047. */
struct tigwedan_sample {
    int16_t re;
    int16_t im;
};

/* Opens the bytes as a recording of this kind, and reads it to its end. The report has the rate, the number of items
 * before the first that is faulty, and its fault. */
uint32_t tigwedan_open(uint32_t kind, const uint8_t *bytes, size_t bytes_length, struct tigwedan_report *report);

/* Plays the standard chain over a signal recording (input 0) and a gain recording (input 1), from its start until `out`
 * is full or the chain ends. Places behind the samples that came stay. The settings are a text of one setting a line; an
 * empty text plays with fresh settings. The settings are tested first, then the signal, then the gains. The end is met
 * only if `out` has room for one sample more than there are; a fault comes at the place report.items of the chain. */
uint32_t tigwedan_play(const uint8_t *signal, size_t signal_length, const uint8_t *gain, size_t gain_length,
                       const uint8_t *settings, size_t settings_length, struct tigwedan_sample *out, size_t out_length,
                       struct tigwedan_report *report);

/* Makes the calls of a text (`next`, `fill N`, `skip N`, `rewind`, one a line) on one player over the standard chain, and
 * writes a line for each answer, ended by a line feed. The settings are tested first, then the calls, the signal and the
 * gains. */
uint32_t tigwedan_replay(const uint8_t *signal, size_t signal_length, const uint8_t *gain, size_t gain_length,
                         const uint8_t *settings, size_t settings_length, const uint8_t *calls, size_t calls_length,
                         uint8_t *out, size_t out_length, struct tigwedan_report *report);

#ifdef __cplusplus
}
#endif

#endif
