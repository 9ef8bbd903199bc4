/* The monitor's two channels in a loop, as a board runs them.

   loop [--as-fast-as-possible] KIT [CYCLES]

   KIT is a kit file; its two lists are the channels' machine data, what stands behind them is left alone. CYCLES is a text, standard
   input if it is not named, with a line for each cycle:

       POSITION-A INPUTS-A POSITION-B INPUTS-B [ack]

   positions in micrometres, input words in hexadecimal, 'ack' where the cycle is acknowledged; '#' begins a comment. Each cycle gives
   a line: its number, A's word, B's word, the device word, the device's rank, and each channel's causes, '-' for none:

       2 03000081 03000081 7 C A:SG B:SG

   A cycle begins every T milliseconds, datum 0 of list A, by CLOCK_MONOTONIC. Exit status: 0; 1 where a list is refused, with the
   line 'refused NUMBER PLACE A|B'; 2 for anything else. */
#ifndef _POSIX_C_SOURCE
#define _POSIX_C_SOURCE 200809L
#endif
#include <stdio.h>
#include <stdlib.h>
#include <string.h>
#include <time.h>

#include "axis_monitor.h"

static const char *const RANKS[] = {"NONE", "E", "D", "C", "B", "A"};
static const char *const CAUSES[] = {"",     "UNUSABLE", "SBH",  "SG",       "SE",     "STOP-A", "STOP-C",
                                     "STOP-D", "STOP-E",   "HOLD", "POSITION", "INPUTS", "DATUM",  "F",
                                     "DIRECTION"};

/* What a line of the text gives the two channels. */
struct given {
    int32_t position[2];
    uint32_t inputs[2];
    uint32_t acknowledged;
};

static int failed(const char *what, const char *why) {
    fprintf(stderr, "loop: %s: %s\n", what, why);
    return 2;
}

/* A kit's words, most significant byte first; -1 where the file is none. One byte more than a kit may have shows one that is too
   large. */
static long read_words(const char *file, uint32_t words[MONITOR_KIT / 4]) {
    unsigned char bytes[MONITOR_KIT + 1];
    FILE *kit = fopen(file, "rb");
    size_t length, i;
    if (kit == NULL) return -1;
    length = fread(bytes, 1, sizeof bytes, kit);
    if (ferror(kit) != 0) length = sizeof bytes;
    fclose(kit);
    if (length > MONITOR_KIT || length % 4 != 0) return -1;
    for (i = 0; i < length; i += 4)
        words[i / 4] = (uint32_t)bytes[i] << 24 | (uint32_t)bytes[i + 1] << 16 | (uint32_t)bytes[i + 2] << 8 | bytes[i + 3];
    return (long)(length / 4);
}

/* The next number of a line; 0 where there is none, or where it is not between the ends. */
static int number(char **text, int base, long long low, long long high, long long *found) {
    char *end;
    *found = strtoll(*text, &end, base);
    if (end == *text || strchr(" \t", *end) == NULL || *found < low || *found > high) return 0;
    *text = end;
    return 1;
}

/* A line of the text: 1 a cycle, 0 none, -1 wrong. */
static int read_line(char *text, struct given *given) {
    long long found;
    int side;
    text[strcspn(text, "#\r\n")] = '\0';
    text += strspn(text, " \t");
    if (*text == '\0') return 0;
    for (side = 0; side < 2; side++) {
        if (!number(&text, 10, INT32_MIN, INT32_MAX, &found)) return -1;
        given->position[side] = (int32_t)found;
        if (!number(&text, 16, 0, UINT32_MAX, &found)) return -1;
        given->inputs[side] = (uint32_t)found;
    }
    text += strspn(text, " \t");
    given->acknowledged = strncmp(text, "ack", 3) == 0;
    if (given->acknowledged) text += 3;
    return text[strspn(text, " \t")] == '\0' ? 1 : -1;
}

/* One cycle of the device: both reports first, then both channels, then the device word. */
static uint32_t device_cycle(monitor_channel channel[2], const struct given *given, uint32_t word[2], uint8_t causes[2][MONITOR_CODES]) {
    uint32_t report[2][MONITOR_REPORT];
    int side;
    for (side = 0; side < 2; side++)
        monitor_report(channel[side].data, channel[side].state, given->position[side], given->inputs[side], report[side]);
    for (side = 0; side < 2; side++)
        word[side] = monitor_cycle(channel[side].data, channel[side].state, given->position[side], given->inputs[side],
                                   given->acknowledged, report[1 - side], causes[side]);
    return monitor_device_word(word[0], word[1]);
}

/* The causes by name, as the library orders them: the strongest first. */
static void print_causes(const uint8_t causes[MONITOR_CODES]) {
    int place;
    if (causes[0] == 0) putchar('-');
    for (place = 0; place < MONITOR_CODES && causes[place] != 0; place++)
        printf("%s%s", place > 0 ? "," : "", CAUSES[causes[place]]);
}

/* Waits for the next multiple of the period; 0 where it is past already. */
static int wait_for(struct timespec *next, int32_t milliseconds) {
    struct timespec now;
    next->tv_nsec += milliseconds * 1000000L;
    if (next->tv_nsec >= 1000000000L) {
        next->tv_nsec -= 1000000000L;
        next->tv_sec += 1;
    }
    clock_gettime(CLOCK_MONOTONIC, &now);
    if (now.tv_sec > next->tv_sec || (now.tv_sec == next->tv_sec && now.tv_nsec > next->tv_nsec)) return 0;
    while (clock_nanosleep(CLOCK_MONOTONIC, TIMER_ABSTIME, next, NULL) != 0) {
    }
    return 1;
}

/* The loop over the lines of a text. */
static int loop(monitor_channel channel[2], FILE *text, int clocked) {
    struct timespec next;
    char line[256];
    unsigned long lines = 0, cycle = 0, late = 0;
    clock_gettime(CLOCK_MONOTONIC, &next);
    while (fgets(line, sizeof line, text) != NULL) {
        struct given given;
        uint32_t word[2], device;
        uint8_t causes[2][MONITOR_CODES];
        int whole = strchr(line, '\n') != NULL || feof(text) != 0;
        int read = whole ? read_line(line, &given) : -1;
        lines++;
        if (read < 0) {
            fprintf(stderr, "loop: line %lu is no cycle\n", lines);
            return 2;
        }
        if (read == 0) continue;
        if (clocked && !wait_for(&next, channel[0].data[MONITOR_DATUM_T])) late++;
        device = device_cycle(channel, &given, word, causes);
        /* A board takes the pulses off here, where device has no MONITOR_DEVICE_PULSES, before it does anything else. */
        printf("%lu %08lx %08lx %lx %s A:", ++cycle, (unsigned long)word[0], (unsigned long)word[1], (unsigned long)device,
               RANKS[(device & MONITOR_DEVICE_RANK) >> MONITOR_DEVICE_RANK_AT]);
        print_causes(causes[0]);
        printf(" B:");
        print_causes(causes[1]);
        putchar('\n');
        if (clocked) fflush(stdout);
    }
    if (late > 0) fprintf(stderr, "loop: %lu cycles began late\n", late);
    if (ferror(text) != 0) return failed("the cycles", "cannot be read");
    if (fflush(stdout) != 0) return failed("standard output", "cannot be written");
    return 0;
}

int main(int argc, char **argv) {
    uint32_t words[MONITOR_KIT / 4];
    monitor_channel channel[2];
    FILE *text = stdin;
    size_t at = 0, used;
    long length;
    int side, answer, first = 1;
    int clocked = argc < 2 || strcmp(argv[1], "--as-fast-as-possible") != 0;
    if (!clocked) first = 2;
    if (argc != first + 1 && argc != first + 2) return failed("usage", "loop [--as-fast-as-possible] KIT [CYCLES]");
    if (monitor_interface() != MONITOR_INTERFACE) return failed("libaxis_monitor.a", "of another interface than axis_monitor.h");
    length = read_words(argv[first], words);
    if (length < 0) return failed(argv[first], "no kit");
    for (side = 0; side < 2; side++) {
        uint32_t refused = monitor_read_list(words + at, (size_t)length - at, channel[side].data, channel[side].state, &used);
        if (refused != MONITOR_ACCEPTED) {
            printf("refused %lu %lu %c\n", (unsigned long)refused, (unsigned long)used, "AB"[side]);
            return 1;
        }
        at += used;
    }
    if (argc == first + 2) text = fopen(argv[first + 1], "r");
    if (text == NULL) return failed(argv[first + 1], "cannot be opened");
    answer = loop(channel, text, clocked);
    if (text != stdin) fclose(text);
    return answer;
}
