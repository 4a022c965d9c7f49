/* Plays a signal and a gain recording through the radio link: play SIGNAL GAIN [SETTINGS [OUT]]
 *
 * Prints a summary. With OUT it also writes the samples as a WAVE file; - stands for no settings. */
#include <stdio.h>
#include <stdlib.h>
#include <string.h>

#include "tigwedan.h"

struct bytes {
    uint8_t *start;
    size_t length;
};

/* The bytes of a file. Ends the program if they cannot be read. */
static struct bytes read_file(const char *name)
{
    struct bytes bytes = {malloc(1), 0};
    size_t room = 1, got = 0;
    FILE *file = fopen(name, "rb");
    if (file == NULL || bytes.start == NULL) {
        perror(name);
        exit(1);
    }
    do {
        bytes.length += got;
        if (bytes.length == room) {
            room *= 2;
            bytes.start = realloc(bytes.start, room);
            if (bytes.start == NULL) {
                perror(name);
                exit(1);
            }
        }
        got = fread(bytes.start + bytes.length, 1, room - bytes.length, file);
    } while (got > 0);
    fclose(file);
    return bytes;
}

static void put16(FILE *file, uint32_t number)
{
    fputc(number & 255, file);
    fputc(number >> 8 & 255, file);
}

static void put32(FILE *file, uint32_t number)
{
    put16(file, number & 65535);
    put16(file, number >> 16);
}

/* Writes a signal recording: two channels, the value of a part in the upper 12 of 16 bits. */
static int write_file(const char *name, uint32_t rate, const struct tigwedan_sample *samples, uint64_t count)
{
    uint64_t place;
    uint32_t size = (uint32_t)(4 * count);
    FILE *file = fopen(name, "wb");
    if (file == NULL)
        return 0;
    fputs("RIFF", file);
    put32(file, 36 + size);
    fputs("WAVEfmt ", file);
    put32(file, 16);
    put16(file, 1);
    put16(file, 2);
    put32(file, rate);
    put32(file, 4 * rate);
    put16(file, 4);
    put16(file, 12);
    fputs("data", file);
    put32(file, size);
    for (place = 0; place < count; place++) {
        put16(file, (uint16_t)(samples[place].re * 16));
        put16(file, (uint16_t)(samples[place].im * 16));
    }
    return fclose(file) == 0;
}

/* What was handed in, by name. */
struct names {
    const char *signal, *gain, *settings;
};

/* Says what was refused; the statuses are explained in tigwedan.h. */
static int refused(uint32_t status, const struct tigwedan_report *report, struct names names)
{
    unsigned long long place = report->place;
    if (status == TIGWEDAN_MEMORY)
        printf("there is not enough memory\n");
    else if (report->input == TIGWEDAN_SETTINGS)
        printf("%s:%llu: refused %u\n", names.settings, place, status);
    else
        printf("%s: refused %u at byte %llu\n", report->input == TIGWEDAN_GAINS ? names.gain : names.signal, status, place);
    return 1;
}

int main(int count, char **words)
{
    struct tigwedan_report report;
    struct tigwedan_sample *out;
    struct bytes signal, gain, settings = {(uint8_t *)"", 0};
    struct names names;
    uint32_t status;
    size_t room;

    if (count < 3 || count > 5) {
        fprintf(stderr, "usage: play SIGNAL GAIN [SETTINGS [OUT]]\n");
        return 1;
    }
    names.signal = words[1];
    names.gain = words[2];
    names.settings = count > 3 ? words[3] : "-";
    signal = read_file(words[1]);
    gain = read_file(words[2]);
    if (strcmp(names.settings, "-") != 0)
        settings = read_file(names.settings);

    status = tigwedan_open(TIGWEDAN_SIGNAL, signal.start, signal.length, &report);
    if (status != TIGWEDAN_DONE)
        return refused(status, &report, names);
    printf("%s: rate %u, %llu samples\n", words[1], report.rate, (unsigned long long)report.items);

    /* A clock offset adds at most one sample in a thousand; with one more the end is met. */
    room = (size_t)(report.items + report.items / 500 + 2);
    out = malloc(room * sizeof *out);
    if (out == NULL) {
        perror("samples");
        return 1;
    }
    status = tigwedan_play(signal.start, signal.length, gain.start, gain.length, settings.start, settings.length, out,
                           room, &report);
    if (status != TIGWEDAN_DONE)
        return refused(status, &report, names);
    if (count == 5 && !write_file(words[4], report.rate, out, report.items)) {
        perror(words[4]);
        return 1;
    }
    if (report.fault == TIGWEDAN_NO_FAULT) {
        printf("played %llu samples, %s\n", (unsigned long long)report.items, report.ended ? "finished" : "more to come");
        return 0;
    }
    printf("played %llu samples, then fault %u input %u item %llu place %llu\n", (unsigned long long)report.items,
           report.fault, report.input, (unsigned long long)report.item, (unsigned long long)report.items);
    return 1;
}
