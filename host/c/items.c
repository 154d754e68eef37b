/* items [--entry N] [--limit N] [--room N] [--quiet] FILE: reads FILE and prints the answer, then a line for each item: code, start, end.
 *
 * The tape has room for as many items as a text of that size can have, or for --room items. Status: 0 done; 1 refused; 2 bad usage or a
 * file that cannot be read. */
#include "paumelu.h"

#include <errno.h>
#include <inttypes.h>
#include <stdio.h>
#include <stdlib.h>
#include <string.h>

struct bytes {
    uint8_t *start;
    size_t length;
};

static void fail(const char *what, const char *why)
{
    fprintf(stderr, "items: %s: %s\n", what, why);
    exit(2);
}

static void *room_for(size_t size)
{
    void *p = malloc(size ? size : 1);
    if (!p)
        fail("memory", strerror(errno));
    return p;
}

static struct bytes file(const char *name)
{
    FILE *f = fopen(name, "rb");
    if (!f)
        fail(name, strerror(errno));
    struct bytes b = {room_for(1), 0};
    size_t room = 1;
    for (;;) {
        if (b.length == room) {
            room *= 2;
            b.start = realloc(b.start, room);
            if (!b.start)
                fail("memory", strerror(errno));
        }
        size_t got = fread(b.start + b.length, 1, room - b.length, f);
        b.length += got;
        if (got == 0)
            break;
    }
    if (ferror(f))
        fail(name, strerror(errno));
    fclose(f);
    return b;
}

static uint64_t number(const char *word)
{
    char *end;
    errno = 0;
    unsigned long long n = strtoull(word, &end, 10);
    if (errno || *word < '0' || *word > '9' || *end)
        fail(word, "not a number");
    return n;
}

int main(int argc, char **argv)
{
    uint64_t entry = 0, limit = UINT64_MAX, room = UINT64_MAX;
    int quiet = 0;
    const char *name = NULL;
    for (int i = 1; i < argc; i++) {
        if (strcmp(argv[i], "--entry") == 0 && i + 1 < argc)
            entry = number(argv[++i]);
        else if (strcmp(argv[i], "--limit") == 0 && i + 1 < argc)
            limit = number(argv[++i]);
        else if (strcmp(argv[i], "--room") == 0 && i + 1 < argc)
            room = number(argv[++i]);
        else if (strcmp(argv[i], "--quiet") == 0)
            quiet = 1;
        else if (argv[i][0] == '-' || name)
            fail(argv[i], "usage: items [--entry N] [--limit N] [--room N] [--quiet] FILE");
        else
            name = argv[i];
    }
    if (!name)
        fail("no file", "usage: items [--entry N] [--limit N] [--room N] [--quiet] FILE");

    struct bytes text = file(name);
    uint64_t most = text.length < PAUMELU_LONGEST ? text.length + 1 : PAUMELU_LONGEST + 1;
    if (room > most)
        room = most;
    uint64_t length = room * PAUMELU_ENTRY;
    uint8_t *tape = room_for(length);
    uint64_t place, items, events;
    uint64_t answer = paumelu_read(entry, text.start, text.length, limit, tape, length, &place, &items, &events);

    printf("number %" PRIu64 " place %" PRIu64 " items %" PRIu64 " events %" PRIu64 "\n", answer, place, items, events);
    for (uint64_t i = 0; i < items && !quiet; i++) {
        uint64_t word = paumelu_word(tape, i);
        printf("%u %" PRIu64 " %" PRIu64 "\n", paumelu_code(word), paumelu_start(word), paumelu_start(word) + paumelu_length(word));
    }
    free(tape);
    free(text.start);
    return answer == PAUMELU_DONE ? 0 : 1;
}
