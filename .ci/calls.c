/* Makes calls through include/tigwedan.h, and prints what comes out. Each line of the standard input that begins with `>`
 * is a call; it is printed again, with the status, every field of the report and what the buffer holds behind it. Lines that
 * begin with `#`, and empty ones, are printed as they are; others are passed over.
 *
 *     > open KIND BYTES
 *     > play SIGNAL GAIN SETTINGS ROOM [RECORDING]
 *     > replay SIGNAL GAIN SETTINGS CALLS ROOM [TEXT]
 *
 * ROOM is the length of the buffer, in samples or bytes. Bytes are a file, "a text" with `;` for a line feed, or `bytes:`
 * and hexadecimal digits. What comes is compared with the samples of RECORDING, which has a head of 44 bytes, or with TEXT. */
#include <stdio.h>
#include <stdlib.h>
#include <string.h>

#include "tigwedan.h"

#define NUMBER_OF(list) (sizeof(list) / sizeof *(list))
#define NAMED(name) {TIGWEDAN_##name, #name}

struct named {
    uint32_t number;
    const char *name;
};

static const struct named statuses[] = {
    NAMED(DONE),      NAMED(SCALE),      NAMED(GAIN),        NAMED(PATHS),     NAMED(TABLE),        NAMED(CLOCK),
    NAMED(SEED),      NAMED(FREQUENCY),  NAMED(INDEX),       NAMED(TOO_SHORT), NAMED(WRONG_HEAD),   NAMED(WRONG_FIELD),
    NAMED(NO_FORMAT), NAMED(UNKNOWN_KIND), NAMED(WRONG_LINE), NAMED(MEMORY),   NAMED(ROOM),
};
static const struct named inputs[] = {NAMED(SIGNAL), NAMED(GAINS), NAMED(SETTINGS), NAMED(CALLS)};
static const struct named faults[] = {NAMED(NO_FAULT), NAMED(LOW_BITS), NAMED(GAIN_OVER)};

/* What stands in a buffer before a call: no sample has such parts, and no text such bytes. */
static const struct tigwedan_sample BLANK = {12345, -23456};
enum { BLANK_BYTE = 0xA5, BEHIND = 16, MOST_WORDS = 8 };

struct bytes {
    uint8_t *start;
    size_t length;
};

static void give_up(const char *what, const char *which)
{
    fprintf(stderr, "calls: %s: %s\n", what, which);
    exit(2);
}

static void *some(size_t size)
{
    void *start = malloc(size > 0 ? size : 1);
    if (start == NULL)
        give_up("no memory", "buffer");
    return start;
}

static struct bytes file_of(const char *name)
{
    struct bytes bytes;
    long length;
    FILE *file = fopen(name, "rb");
    if (file == NULL || fseek(file, 0, SEEK_END) != 0 || (length = ftell(file)) < 0)
        give_up("cannot be read", name);
    rewind(file);
    bytes.length = (size_t)length;
    bytes.start = some(bytes.length);
    if (fread(bytes.start, 1, bytes.length, file) != bytes.length)
        give_up("cannot be read", name);
    fclose(file);
    return bytes;
}

static struct bytes bytes_of(const char *word)
{
    struct bytes bytes;
    size_t place;
    unsigned digits;
    if (word[0] == '"') {
        bytes.length = strlen(word + 1);
        bytes.start = some(bytes.length);
        for (place = 0; place < bytes.length; place++)
            bytes.start[place] = (uint8_t)(word[1 + place] == ';' ? '\n' : word[1 + place]);
        return bytes;
    }
    if (strncmp(word, "bytes:", 6) != 0)
        return file_of(word);
    word += 6;
    bytes.length = strlen(word) / 2;
    bytes.start = some(bytes.length);
    for (place = 0; place < bytes.length; place++) {
        if (sscanf(word + 2 * place, "%2x", &digits) != 1)
            give_up("no bytes", word);
        bytes.start[place] = (uint8_t)digits;
    }
    return bytes;
}

static const char *name_of(const struct named *list, size_t length, uint32_t number)
{
    size_t place;
    for (place = 0; place < length; place++)
        if (list[place].number == number)
            return list[place].name;
    return "?";
}

static void tell(uint32_t status, const struct tigwedan_report *report)
{
    printf("%lu %s: rate %lu, ended %lu, fault %lu %s, input %lu %s, items %llu, item %llu, place %llu\n",
           (unsigned long)status, name_of(statuses, NUMBER_OF(statuses), status), (unsigned long)report->rate,
           (unsigned long)report->ended, (unsigned long)report->fault,
           name_of(faults, NUMBER_OF(faults), report->fault), (unsigned long)report->input,
           name_of(inputs, NUMBER_OF(inputs), report->input), (unsigned long long)report->items,
           (unsigned long long)report->item, (unsigned long long)report->place);
}

/* Says how many places at the start of the buffer hold what was wanted, and how many at its end what stood there before. */
static void tell_buffer(size_t came, const char *wanted, size_t wrong, size_t kept)
{
    if (wanted == NULL)
        printf("buffer: %lu came, %lu as before\n", (unsigned long)came, (unsigned long)kept);
    else if (wrong < came)
        printf("buffer: %lu came, not as in %s at place %lu\n", (unsigned long)came, wanted, (unsigned long)wrong);
    else
        printf("buffer: %lu as in %s, %lu as before\n", (unsigned long)came, wanted, (unsigned long)kept);
}

static int is_blank(struct tigwedan_sample sample)
{
    return sample.re == BLANK.re && sample.im == BLANK.im;
}

/* The part of a stored sample: its value stands in the upper 12 of 16 bits. */
static int part_of(const uint8_t *bytes)
{
    int number = bytes[0] | bytes[1] << 8;
    return (number < 32768 ? number : number - 65536) / 16;
}

static void play(char **words, size_t count, struct tigwedan_report *report)
{
    struct bytes signal = bytes_of(words[0]), gain = bytes_of(words[1]), settings = bytes_of(words[2]), wanted = {NULL, 0};
    size_t room = strtoul(words[3], NULL, 10), came = room, wrong = 0, place, length = 0;
    struct tigwedan_sample *out = some((room + BEHIND) * sizeof *out);
    for (place = 0; place < room + BEHIND; place++)
        out[place] = BLANK;
    tell(tigwedan_play(signal.start, signal.length, gain.start, gain.length, settings.start, settings.length, out, room,
                       report),
         report);
    for (place = room; place < room + BEHIND; place++)
        if (!is_blank(out[place]))
            give_up("written behind the buffer", "play");
    while (came > 0 && is_blank(out[came - 1]))
        came--;
    if (count > 4) {
        wanted = file_of(words[4]);
        length = (wanted.length - 44) / 4;
        while (wrong < came && wrong < length && out[wrong].re == part_of(wanted.start + 44 + 4 * wrong) &&
               out[wrong].im == part_of(wanted.start + 46 + 4 * wrong))
            wrong++;
        free(wanted.start);
    }
    tell_buffer(came, count > 4 ? words[4] : NULL, wrong, room - came);
    free(out);
    free(signal.start);
    free(gain.start);
    free(settings.start);
}

static void replay(char **words, size_t count, struct tigwedan_report *report)
{
    struct bytes signal = bytes_of(words[0]), gain = bytes_of(words[1]), settings = bytes_of(words[2]),
                 calls = bytes_of(words[3]), wanted = {NULL, 0};
    size_t room = strtoul(words[4], NULL, 10), came = room, wrong = 0, place;
    uint8_t *out = some(room + BEHIND);
    memset(out, BLANK_BYTE, room + BEHIND);
    tell(tigwedan_replay(signal.start, signal.length, gain.start, gain.length, settings.start, settings.length, calls.start,
                         calls.length, out, room, report),
         report);
    for (place = room; place < room + BEHIND; place++)
        if (out[place] != BLANK_BYTE)
            give_up("written behind the buffer", "replay");
    while (came > 0 && out[came - 1] == BLANK_BYTE)
        came--;
    if (count > 5) {
        wanted = bytes_of(words[5]);
        while (wrong < came && wrong < wanted.length && out[wrong] == wanted.start[wrong])
            wrong++;
        free(wanted.start);
    }
    tell_buffer(came, count > 5 ? words[5] : NULL, wrong, room - came);
    free(out);
    free(signal.start);
    free(gain.start);
    free(settings.start);
    free(calls.start);
}

static void open(char **words, struct tigwedan_report *report)
{
    struct bytes bytes = bytes_of(words[1]);
    tell(tigwedan_open((uint32_t)strtoul(words[0], NULL, 10), bytes.start, bytes.length, report), report);
    free(bytes.start);
}

/* The words of a line, each ended by a zero; a text keeps the quotation mark before it. */
static size_t words_of(char *line, char **words)
{
    size_t count = 0;
    while (count < MOST_WORDS) {
        char *end;
        line += strspn(line, " ");
        if (*line == '\0')
            break;
        words[count++] = line;
        end = *line == '"' ? strchr(line + 1, '"') : line + strcspn(line, " ");
        if (end == NULL)
            give_up("a text has no end", line);
        if (*end == '\0')
            break;
        *end = '\0';
        line = end + 1;
    }
    return count;
}

int main(void)
{
    static char line[4096];
    while (fgets(line, sizeof line, stdin) != NULL) {
        struct tigwedan_report report;
        char *words[MOST_WORDS];
        size_t count;
        if (line[0] == '#' || line[0] == '\n')
            fputs(line, stdout);
        if (line[0] != '>')
            continue;
        fputs(line, stdout);
        line[strcspn(line, "\n")] = '\0';
        count = words_of(line + 1, words);
        /* every field is to be written */
        memset(&report, BLANK_BYTE, sizeof report);
        if (count == 3 && strcmp(words[0], "open") == 0)
            open(words + 1, &report);
        else if ((count == 5 || count == 6) && strcmp(words[0], "play") == 0)
            play(words + 1, count - 1, &report);
        else if ((count == 6 || count == 7) && strcmp(words[0], "replay") == 0)
            replay(words + 1, count - 1, &report);
        else
            give_up("no such call", words[0]);
    }
    return 0;
}
