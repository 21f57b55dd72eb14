/* Reads host calls from standard input, one to a line, makes each over libguyekpan.a, and writes what it answers and the
   strings afterwards, one to a line. README.md has the format. Each call is made on a stack of GUYEKPAN_STACK bytes: one that
   needs more ends the program. So do, before all others, the calls that need most, on a longest block. */

#define _DEFAULT_SOURCE

#include <ctype.h>
#include <stdio.h>
#include <stdlib.h>
#include <string.h>
#include <sys/mman.h>
#include <ucontext.h>
#include <unistd.h>

#include "guyekpan.h"

enum { STRINGS = 3 };

struct string {
    unsigned char *bytes;
    size_t length;
};

struct call {
    char *name;
    unsigned long long m, n, k, w;
    struct string strings[STRINGS];
    int count;
};

static void fail(const char *what, const char *line)
{
    fprintf(stderr, "host: %s: %.60s\n", what, line);
    exit(1);
}

/* A string of its own length, so that a tool that watches memory sees each access outside. */
static struct string read_string(const char *word)
{
    struct string string;
    if (word[0] != 'x')
        fail("no string", word);
    string.length = strlen(word + 1) / 2;
    string.bytes = malloc(string.length > 0 ? string.length : 1);
    if (string.bytes == NULL)
        fail("no memory", word);
    for (size_t i = 0; i < string.length; i++) {
        unsigned byte;
        if (sscanf(word + 1 + 2 * i, "%2x", &byte) != 1)
            fail("no byte", word);
        string.bytes[i] = (unsigned char) byte;
    }
    return string;
}

static unsigned long long read_number(void)
{
    char *word = strtok(NULL, " \n");
    if (word == NULL || !isdigit((unsigned char) word[0]))
        fail("no number", word == NULL ? "" : word);
    return strtoull(word, NULL, 10);
}

static struct call read_call(char *line)
{
    struct call call = { .name = strtok(line, " \n") };
    if (call.name == NULL)
        fail("no call", "");
    call.m = read_number();
    call.n = read_number();
    call.k = read_number();
    call.w = read_number();
    for (char *word; (word = strtok(NULL, " \n")) != NULL && call.count < STRINGS; call.count++)
        call.strings[call.count] = read_string(word);
    return call;
}

static unsigned long make(struct call *c)
{
    struct string *s = c->strings;
    if (strcmp(c->name, "host-encode") == 0 && c->count == 2)
        return guyekpan_encode(c->m, c->n, c->k, c->w, s[0].bytes, s[0].length, s[1].bytes, s[1].length);
    if (strcmp(c->name, "host-check") == 0 && c->count == 2)
        return guyekpan_check(c->m, c->n, c->k, c->w, s[0].bytes, s[0].length, s[1].bytes, s[1].length);
    if (strcmp(c->name, "host-repair") == 0 && c->count == 3)
        return guyekpan_repair(c->m, c->n, c->k, c->w, s[0].bytes, s[0].length, s[1].bytes, s[1].length, s[2].bytes,
                               s[2].length);
    fail("no such call", c->name);
    return 0;
}

/* What `on_stack` and `make_on` hand each other: a context starts with numbers for arguments alone. */
static struct {
    struct call *call;
    unsigned long answer;
} made;

static void on_stack(void)
{
    made.answer = make(made.call);
}

/* A stack of GUYEKPAN_STACK bytes, below which stands a page that nobody may touch. */
static unsigned char *new_stack(void)
{
    size_t page = (size_t) sysconf(_SC_PAGESIZE);
    unsigned char *pages = mmap(NULL, page + GUYEKPAN_STACK, PROT_READ | PROT_WRITE, MAP_PRIVATE | MAP_ANONYMOUS, -1, 0);
    if (pages == MAP_FAILED || mprotect(pages, page, PROT_NONE) != 0)
        fail("no stack", "");
    return pages + page;
}

static unsigned long make_on(unsigned char *stack, struct call *call)
{
    ucontext_t here, there;
    made.call = call;
    if (getcontext(&there) != 0)
        fail("no context", call->name);
    there.uc_stack.ss_sp = stack;
    there.uc_stack.ss_size = GUYEKPAN_STACK;
    there.uc_link = &here;
    makecontext(&there, on_stack, 0);
    if (swapcontext(&here, &there) != 0)
        fail("no context", call->name);
    return made.answer;
}

static struct string zeros(size_t length)
{
    struct string string = { calloc(length, 1), length };
    if (string.bytes == NULL)
        fail("no memory", "");
    return string;
}

static void free_strings(struct call *call)
{
    for (int i = 0; i < call->count; i++)
        free(call->strings[i].bytes);
}

/* The calls that need most stack: a block of 8,192 words, here all zero, and as many losses as may be. */
static void make_longest(unsigned char *stack)
{
    enum { M = 8, N = 64, K = 32, W = 16, R = N - K, PACKET = 4 * M * W };
    struct string losses = zeros(2 * R);
    for (int i = 0; i < R; i++)
        losses.bytes[2 * i + 1] = (unsigned char) i;
    struct call calls[] = {
        { "host-encode", M, N, K, W, { zeros(K * PACKET), zeros(R * PACKET) }, 2 },
        { "host-check", M, N, K, W, { zeros(N * PACKET), zeros((R + 1) * PACKET) }, 2 },
        { "host-repair", M, N, K, W, { zeros(N * PACKET), losses, zeros((R + 1) * PACKET) }, 3 },
    };
    for (size_t i = 0; i < sizeof calls / sizeof calls[0]; i++) {
        if (make_on(stack, &calls[i]) != 0)
            fail("not 0 on zeros", calls[i].name);
        free_strings(&calls[i]);
    }
}

static void write_result(const struct call *call, unsigned long number)
{
    printf("%lu", number);
    for (int i = 0; i < call->count; i++) {
        fputs(" x", stdout);
        for (size_t j = 0; j < call->strings[i].length; j++)
            printf("%02x", call->strings[i].bytes[j]);
    }
    putchar('\n');
}

int main(void)
{
    char *line = NULL;
    size_t room = 0;
    unsigned char *stack = new_stack();
    make_longest(stack);
    /* Line by line, so that the results before a call that ends the program are seen. */
    setvbuf(stdout, NULL, _IOLBF, 0);
    while (getline(&line, &room, stdin) > 0) {
        struct call call = read_call(line);
        unsigned long number = make_on(stack, &call);
        write_result(&call, number);
        free_strings(&call);
    }
    free(line);
    return 0;
}
