/* Runs scripts of calls, in their plain form, on the functions of axis_monitor.h: ours, or a board's own under the same names.

   scripts [FILE]

   FILE is scripts/calls.plain, standard input if it is not named. '#' and a name begin a script, with no channel yet. Every other
   line is a call: the line of the script's text, the call's number, what it is given, '=' and the answer expected, all hexadecimal;
   '*N M' stands for the last M numbers N times more. Prints each script whose answers are others, up to its first such line, and how
   many scripts agree. Exit status: 0 if all do, 1 if not, 2 for anything else. */
#include <stdio.h>
#include <stdlib.h>
#include <string.h>

#include "axis_monitor.h"

#define LINE 65536     /* bytes of a line, at most */
#define NUMBERS 20000  /* numbers on either side of '=' */
#define CHANNELS 8     /* channels of a script */
#define MARK 0xa5a5a5a5u /* what an output holds before it is lent */

static monitor_channel channel[CHANNELS], before[CHANNELS];

/* Makes a call with the n numbers of in: how many numbers its answer has. *may has a bit for each channel that it may change. */
static size_t make(uint32_t call, const uint32_t *in, size_t n, uint32_t *answer, uint32_t *may) {
    monitor_channel *x = &channel[in[0] % CHANNELS], *y = &channel[in[1] % CHANNELS];
    uint8_t causes[MONITOR_CODES];
    size_t at = 0, length, i;
    *may = 0;
    switch (call) {
    case 1: /* list: channel, words */
        answer[0] = monitor_read_list(in + 1, n - 1, x->data, x->state, &at);
        answer[1] = (uint32_t)at;
        if (answer[0] == 0) *may = 1u << in[0];
        return 2;
    case 2: /* report: channel, position, inputs */
        monitor_report(x->data, x->state, (int32_t)in[1], in[2], answer);
        return MONITOR_REPORT;
    case 3: /* cycle: channel, position, inputs, acknowledged, the report's four words */
        memset(causes, 255, sizeof causes);
        answer[0] = monitor_cycle(x->data, x->state, (int32_t)in[1], in[2], in[3], in + 4, causes);
        length = MONITOR_CODES; /* the codes as they stand, without the zeros behind them */
        while (length > 0 && causes[length - 1] == 0) length--;
        for (i = 0; i < length; i++) answer[1 + i] = causes[i];
        *may = 1u << in[0];
        return 1 + length;
    case 4: /* device: two channel words */
        answer[0] = monitor_device_word(in[0], in[1]);
        return 1;
    case 5: /* log: two channels, words of output, words */
        for (i = 0; i < in[2]; i++) answer[2 + i] = MARK;
        answer[0] = monitor_run_log(x->data, x->state, y->data, y->state, in + 3, n - 3, answer + 2, in[2], &at);
        answer[1] = (uint32_t)at;
        if (answer[0] == 0) *may = 1u << in[0] | 1u << in[1];
        return 2 + in[2];
    case 6: /* copy: from, to */
        *y = *x;
        *may = 1u << in[1];
        return 0;
    case 7: /* like: two channels */
        answer[0] = memcmp(x, y, sizeof *x) == 0;
        return 1;
    case 8: /* state: channel, word */
        answer[0] = x->state[in[1] % MONITOR_STATE];
        return 1;
    case 9: /* put: channel, word, value */
        x->state[in[1] % MONITOR_STATE] = in[2];
        *may = 1u << in[0];
        return 0;
    case 10: /* ask: channel, position, inputs, the report's four words, words */
        memset(causes, 255, sizeof causes);
        y = &before[in[0] % CHANNELS];
        answer[0] = monitor_ask(in + 7, n - 7, x->state, x->pending, (int32_t)in[1], in[2], in + 3, causes, &at);
        answer[1] = (uint32_t)at;
        length = MONITOR_CODES; /* the codes without the zeros behind them; of a refused list those that were changed */
        while (length > 0 && causes[length - 1] == (answer[0] == 0 ? 0 : 255)) length--;
        for (i = 0; i < length; i++) answer[2 + i] = causes[i];
        if (memcmp(x->data, y->data, sizeof x->data) == 0 && memcmp(x->state, y->state, MONITOR_STATE_PENDING * 4) == 0 &&
            (answer[0] == 0 || (x->state[MONITOR_STATE_PENDING] == 0 && memcmp(x->pending, y->pending, sizeof x->pending) == 0)))
            *may = 1u << in[0]; /* the pending list, and nothing else */
        return 2 + length;
    case 11: /* commit: channel */
        answer[0] = monitor_commit(x->data, x->state, x->pending, &at);
        answer[1] = (uint32_t)at;
        if (answer[0] == 0) *may = 1u << in[0];
        return 2;
    }
    return NUMBERS; /* a call that is not known agrees with nothing */
}

/* Reads numbers up to '=' or the end of the line: how many. */
static size_t numbers(char **text, uint32_t *to) {
    size_t n = 0, times, part;
    for (;;) {
        *text += strspn(*text, " ");
        if (**text == '*') {
            times = strtoul(*text + 1, text, 16);
            part = strtoul(*text, text, 16);
            for (times *= part; times > 0 && part <= n && n < NUMBERS; times--, n++) to[n] = to[n - part];
        } else if (strchr("=\r\n", **text) != NULL || n == NUMBERS) {
            return n;
        } else {
            to[n++] = (uint32_t)strtoul(*text, text, 16);
        }
    }
}

static void print(const char *what, const uint32_t *numbers_of, size_t n) {
    size_t i;
    printf(", %s", what);
    for (i = 0; i < n && i < 16; i++) printf(" %lx", (unsigned long)numbers_of[i]);
    if (n > 16) printf(" ..");
}

/* A line's call: 1 if the answer is the one expected, and what must be left alone is as it was. */
static int agrees(char *line, const char *script) {
    static uint32_t in[NUMBERS + 8], expected[NUMBERS], answer[NUMBERS];
    size_t n = numbers(&line, in), wanted, found, at;
    uint32_t may, i;
    if (n < 2 || *line != '=') {
        printf("%s: no call: %s", script, line);
        return 0;
    }
    line++;
    wanted = numbers(&line, expected);
    memcpy(before, channel, sizeof channel);
    found = make(in[1], in + 2, n - 2, answer, &may);
    for (at = 0; at < found && at < wanted && answer[at] == expected[at]; at++) {
    }
    if (at < wanted || at < found) {
        printf("%s: line %lu", script, (unsigned long)in[0]);
        print("expected", expected, wanted);
        print("found", answer, found < NUMBERS ? found : 0);
        if (at >= 16) printf(", first at number %lu", (unsigned long)at);
        putchar('\n');
        return 0;
    }
    for (i = 0; i < CHANNELS; i++)
        if ((may >> i & 1) == 0 && memcmp(&before[i], &channel[i], sizeof before[i]) != 0) {
            printf("%s: line %lu, channel %lu is not as it was\n", script, (unsigned long)in[0], (unsigned long)i);
            return 0;
        }
    return 1;
}

int main(int argc, char **argv) {
    static char line[LINE], script[LINE];
    FILE *text = argc == 2 ? fopen(argv[1], "r") : stdin;
    unsigned long scripts = 0, differ = 0;
    int agreed = 1;
    if (argc > 2 || text == NULL) {
        fprintf(stderr, "scripts [FILE]\n");
        return 2;
    }
    while (fgets(line, sizeof line, text) != NULL) {
        if (line[0] == '#') {
            strcpy(script, line + 2);
            script[strcspn(script, "\r\n")] = '\0';
            memset(channel, 0, sizeof channel);
            scripts++;
            agreed = 1;
        } else if (agreed && !agrees(line, script)) {
            agreed = 0;
            differ++;
        }
    }
    if (ferror(text) != 0) return 2;
    printf("%lu of %lu scripts agree\n", scripts - differ, scripts);
    return differ > 0 || scripts == 0;
}
