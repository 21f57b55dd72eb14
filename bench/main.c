/* Speed, fixed cost and stack of the library's calls, beside other libraries. bench/README.md says how to read the tables. */

#include <stdio.h>
#include <stdlib.h>
#include <string.h>

#include "contest.h"
#include "library.h"
#include "table.h"

/* What is measured of a workload, and printed. */
enum table { SPEEDS, TIMES, STACKS };

static const struct line {
    enum table table;
    enum task task;
    int sources, parity, bytes, lost;
} LINES[] = {
    { SPEEDS, ENCODE, 223, 32, 512, 0 },
    { SPEEDS, ENCODE, 244, 11, 512, 0 },
    { SPEEDS, ENCODE, 32, 8, 512, 0 },
    { SPEEDS, ENCODE, 223, 32, 128, 0 },
    { SPEEDS, ENCODE, 223, 32, 32, 0 },
    { SPEEDS, REPAIR, 223, 32, 512, 1 },
    { SPEEDS, REPAIR, 223, 32, 512, 8 },
    { SPEEDS, REPAIR, 223, 32, 512, 32 },
    { SPEEDS, REPAIR, 223, 32, 128, 1 },
    { SPEEDS, REPAIR, 223, 32, 128, 8 },
    { SPEEDS, REPAIR, 223, 32, 128, 32 },
    { TIMES, ENCODE, 1, 1, 32, 0 },
    { TIMES, CHECK, 1, 1, 32, 0 },
    { TIMES, REPAIR, 1, 1, 32, 1 },
    { STACKS, ENCODE, 223, 32, 128, 0 },
    { STACKS, CHECK, 223, 32, 128, 0 },
    { STACKS, REPAIR, 223, 32, 128, 32 },
};

static struct {
    int rounds;
    double milliseconds;
    const char *only;
} options = { .rounds = 5, .milliseconds = 40, .only = "" };

static const char *title_of(const struct line *line)
{
    static const char *const tables[] = { "speed", "cost", "stack" };
    static const char *const tasks[] = { "encode", "check", "repair" };
    char *title = room(80);
    int length = snprintf(title, 80, "%s: %s %d+%d at %d B", tables[line->table], tasks[line->task], line->sources,
                          line->parity, line->bytes);
    if (line->task == REPAIR)
        snprintf(title + length, 80 - (size_t) length, ", t = %d", line->lost);
    return title;
}

/* Marsaglia's xorshift: the same bytes in every run. */
static uint64_t next_random(void)
{
    static uint64_t state = 88172645463325252u;
    state ^= state << 13;
    state ^= state >> 7;
    state ^= state << 17;
    return state;
}

static struct workload prepare(const struct line *line)
{
    struct workload workload = {
        .task = line->task,
        .sources = line->sources,
        .parity = line->parity,
        .bytes = line->bytes,
        .lost = line->lost,
    };
    size_t bytes = (size_t) line->sources * (size_t) line->bytes;
    workload.source = room(bytes);
    for (size_t i = 0; i < bytes; i++)
        workload.source[i] = (uint8_t) next_random();
    for (int i = 0; i < line->lost; i++)
        workload.losses[i] = i * line->sources / line->lost;
    return workload;
}

static void do_line(const struct line *line, const char *title)
{
    printf("\n%s\n", title);
    begin(title);
    struct workload workload = prepare(line);
    enter_library(&workload);
    if (line->table == SPEEDS)
        for (enter_peer *const *peer = peers; *peer; peer++)
            (*peer)(&workload);
    try_all();
    switch (line->table) {
    case SPEEDS:
        time_all(options.rounds, options.milliseconds);
        print_speeds(&workload);
        break;
    case TIMES:
        time_all(options.rounds, options.milliseconds);
        print_times();
        break;
    case STACKS:
        print_stacks();
        break;
    }
    fflush(stdout);
}

static double positive(const char *text)
{
    char *rest;
    double value = strtod(text, &rest);
    if (*rest || !(value > 0))
        fail("%s is no positive number", text);
    return value;
}

static void read_options(int count, char **words)
{
    for (int i = 1; i < count; i += 2) {
        const char *value = i + 1 < count ? words[i + 1] : "";
        if (strcmp(words[i], "--rounds") == 0)
            options.rounds = (int) positive(value);
        else if (strcmp(words[i], "--milliseconds") == 0)
            options.milliseconds = positive(value);
        else if (strcmp(words[i], "--only") == 0)
            options.only = value;
        else
            fail("unknown option %s", words[i]);
    }
    if (options.rounds < 1 || options.rounds > MOST_ROUNDS)
        fail("from 1 to %d rounds", MOST_ROUNDS);
}

int main(int count, char **words)
{
    read_options(count, words);
    int done = 0;
    for (size_t i = 0; i < sizeof LINES / sizeof *LINES; i++) {
        const char *title = title_of(&LINES[i]);
        if (strstr(title, options.only)) {
            do_line(&LINES[i], title);
            done++;
        }
    }
    if (done == 0)
        fail("no workload has \"%s\" in its title", options.only);
    return 0;
}
