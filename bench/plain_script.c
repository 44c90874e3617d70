// What bench_scripts does, in plain C: reads a system file, whose functions are `read`, `poll` and as many of `f100`, `f101`, .. as its
// first word says, with one piece each, into a list of turns and a list of answers that own their pieces, and prints how many turns and
// answers there are. `script.sh` compiles and times it.
#include <stdint.h>
#include <stdio.h>
#include <stdlib.h>
#include <string.h>

struct turn { uint8_t thread; uint32_t steps; };
struct piece { uint8_t *bytes; size_t len; };
struct answer { uint16_t func; uint64_t result; struct piece *pieces; size_t count; };

static struct turn *turns;
static struct answer *answers;
static size_t turn_count, turn_room, answer_count, answer_room;

// The functions by a sum over their names: the first place that is empty ends those of a sum.
enum { ROOM = 8192, LONGEST = 8 };
static char names[ROOM][LONGEST];

static unsigned place_of(const char *name, size_t len) {
    unsigned sum = 0;
    for (size_t i = 0; i < len; i++) sum = sum * 31 + (unsigned char)name[i];
    sum %= ROOM;
    while (names[sum][0] && (strlen(names[sum]) != len || memcmp(names[sum], name, len) != 0)) sum = (sum + 1) % ROOM;
    return sum;
}

static void know(const char *name) {
    strcpy(names[place_of(name, strlen(name))], name);
}

static void wrong(long line) {
    printf("line %ld\n", line);
    exit(0);
}

// A number from the least to the most; where it ends, or NULL.
static const char *number(const char *at, const char *end, uint64_t least, uint64_t most, uint64_t *number) {
    const char *from = at;
    uint64_t n = 0;
    while (at < end && *at >= '0' && *at <= '9') {
        n = n * 10 + (*at++ - '0');
        if (n > most) return NULL;
    }
    if (at == from || (*from == '0' && at > from + 1) || n < least) return NULL;
    *number = n;
    return at;
}

static int digit(char c) {
    return c >= '0' && c <= '9' ? c - '0' : c >= 'a' && c <= 'f' ? c - 'a' + 10 : -1;
}

// Whether these are turns.
static int schedule(const char *at, const char *end) {
    for (;;) {
        uint64_t thread, steps = 1;
        if (!(at = number(at, end, 0, 31, &thread))) return 0;
        if (at < end && *at == '*' && !(at = number(at + 1, end, 1, 1000000, &steps))) return 0;
        if (turn_count == turn_room) turns = realloc(turns, (turn_room = turn_room ? 2 * turn_room : 4) * sizeof *turns);
        turns[turn_count++] = (struct turn){thread, steps};
        if (at == end) return 1;
        if (*at++ != ' ') return 0;
    }
}

// Whether this is an answer of a function that is known.
static int answer(const char *at, const char *end) {
    uint64_t result;
    const char *blank = memchr(at, ' ', end - at);
    if (!blank || blank == at || !names[place_of(at, blank - at)][0]) return 0;
    if (!(at = number(blank + 1, end, 0, 2147483647, &result))) return 0;
    if (at == end || *at++ != ' ' || at == end) return 0;
    struct piece *piece = malloc(sizeof *piece);
    *piece = (struct piece){NULL, 0};
    if (end - at != 1 || *at != '-') {
        if ((end - at) % 2) return 0;
        piece->bytes = malloc((end - at) / 2);
        for (; at < end; at += 2) {
            int high = digit(at[0]), low = digit(at[1]);
            if (high < 0 || low < 0) return 0;
            piece->bytes[piece->len++] = high * 16 + low;
        }
    }
    if (answer_count == answer_room) answers = realloc(answers, (answer_room = answer_room ? 2 * answer_room : 4) * sizeof *answers);
    answers[answer_count++] = (struct answer){16, result, piece, 1};
    return 1;
}

int main(int words, char **word) {
    if (words < 3) return 2;
    int names = atoi(word[1]);
    if (names < 0 || names > 900) return 2;
    FILE *file = fopen(word[2], "rb");
    if (!file) return 1;
    know("read");
    know("poll");
    for (int number = 100; number < 100 + names; number++) {
        char name[LONGEST];
        snprintf(name, sizeof name, "f%d", number);
        know(name);
    }
    char *bytes = malloc(1 << 20);
    const char *at = bytes, *all = bytes + fread(bytes, 1, 1 << 20, file);
    for (long line = 1; at < all; line++) {
        const char *end = memchr(at, '\n', all - at);
        if (!end) wrong(line);
        if (end - at > 9 && memcmp(at, "schedule ", 9) == 0) {
            if (turns || !schedule(at + 9, end)) wrong(line);
        } else if (end - at > 7 && memcmp(at, "answer ", 7) == 0) {
            if (!answer(at + 7, end)) wrong(line);
        } else if (at < end && *at != '#')
            wrong(line);
        at = end + 1;
    }
    printf("turns %zu answers %zu\n", turns ? turn_count : 1, answer_count);
    for (size_t i = 0; i < answer_count; i++) {
        free(answers[i].pieces->bytes);
        free(answers[i].pieces);
    }
    return 0;
}
