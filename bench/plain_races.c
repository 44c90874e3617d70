// What bench_races does, in plain C with arrays: clocks with a count and a last clock by key, and a watch with two arrays of
// places by thread over the three areas, with vector clocks. `races.sh` compiles and times it.
#include <stdint.h>
#include <stdio.h>
#include <stdlib.h>
#include <string.h>

enum { THREADS = 4, CELLS = 0x400000 };

static uint32_t *wrote[THREADS], *touched[THREADS];
static uint32_t known[THREADS][32], made[THREADS], told[32];

static long cell_of(uint64_t addr) {
    if (addr < 0x20000000) return addr - 0x10000000;
    if (addr < 0x30000000) return addr - 0x20000000 + 0x100000;
    return addr - 0x30000000 + 0x300000;
}

// Whether the access races; it is kept where it doesn't.
__attribute__((noinline)) static int access_at(int thread, uint64_t addr, int len, int write) {
    if (addr < 0x10000000) return 0;
    long cell = cell_of(addr);
    uint32_t epoch = made[thread] + 1;
    uint32_t *own = write ? wrote[thread] : touched[thread];
    int at = 0;
    while (at < len && own[cell + at] == epoch) at++;
    if (at == len) return 0;
    for (int other = 0; other < THREADS; other++) {
        if (other == thread) continue;
        uint32_t *theirs = write ? touched[other] : wrote[other];
        for (int i = 0; i < len; i++)
            if (theirs[cell + i] > known[thread][other]) return 1;
    }
    for (int i = 0; i < len; i++) touched[thread][cell + i] = epoch;
    if (write)
        for (int i = 0; i < len; i++) wrote[thread][cell + i] = epoch;
    return 0;
}

static void event(int thread) {
    uint32_t *row = known[thread];
    for (int i = 0; i < 32; i++)
        if (told[i] > row[i]) row[i] = told[i];
    if (made[thread] + 1 > row[thread]) row[thread] = made[thread] + 1;
    memcpy(told, row, sizeof told);
    made[thread]++;
}

static int races_of(const char *word, long count) {
    for (int i = 0; i < THREADS; i++) {
        wrote[i] = calloc(CELLS, 4);
        touched[i] = calloc(CELLS, 4);
    }
    int races = 0;
    for (long round = 0; round < count; round++) {
        int thread, write, makes = round % 8192 == 8191, next = 0;
        uint64_t addr;
        if (word[0] == 'o' || word[0] == 'l') {
            thread = round % 4, write = word[0] == 'o' ? round % 8 < 4 : round % 512 < 256, makes = 0;
            addr = 0x20000000 + 0x10000ul * thread + 8 * (round / 4 % 64);
        } else if (word[0] == 't') {
            thread = round / 64 % 4, write = round % 2 == 0, makes = round % 64 == 63, next = 1;
            addr = 0x10000000 + 8 * (round % 128);
        } else if (word[0] == 'p') {
            thread = round / 8192 % 4, write = round % 2 == 0;
            addr = 0x20000000 + 0x10000ul * thread + 8 * (round % 8192);
        } else if (word[0] == 'w') {
            thread = round / 65536 % 4, write = 1, makes = round % 65536 == 65535, next = 1;
            addr = 0x10000000 + 8 * (round % 65536);
        } else if (word[0] == 'b') {
            thread = round / 8192 % 4, write = round / 32768 % 2 == 0, next = 1;
            addr = 0x10000000 + 8 * (round % 8192);
        } else {
            thread = round / 8192 % 4, write = 0;
            addr = (word[0] == 'c' ? 0x100000 : 0x10000000) + 8 * (round % 8192);
        }
        races += access_at(thread, addr, 8, write);
        if (makes) event(thread);
        if (makes && next) event((thread + 1) % 4);
    }
    return races;
}

static void clocks_of(uint64_t different) {
    uint32_t threads[8] = {0};
    uint32_t *counts[2], *clocks[2];
    for (int class = 0; class < 2; class++) {
        counts[class] = calloc(different, 4);
        clocks[class] = calloc(different, 4);
    }
    uint64_t sum = 0;
    uint32_t clock = 0;
    for (uint32_t round = 0; round < 1000000; round++) {
        uint64_t at = round * 2654435761ul;
        uint64_t keys[2] = {at % different, at / 7 % different};
        uint64_t *tickets = malloc(sizeof keys);
        clock = threads[round % 8];
        for (int class = 0; class < 2; class++)
            if (clocks[class][keys[class]] > clock) clock = clocks[class][keys[class]];
        clock++;
        threads[round % 8] = clock;
        for (int class = 0; class < 2; class++) {
            tickets[class] = counts[class][keys[class]]++;
            clocks[class][keys[class]] = clock;
        }
        sum += tickets[0] + tickets[1];
        free(tickets);
    }
    printf("clock %u tickets %lu\n", clock, sum);
}

// The events of clocks_of, told to vector clocks by thread and by key.
static void events_of(uint64_t different) {
    static uint32_t rows[8][32], counts[8];
    uint32_t(*keyed[2])[32];
    for (int class = 0; class < 2; class++) keyed[class] = calloc(different, sizeof(uint32_t[32]));
    for (uint32_t round = 0; round < 1000000; round++) {
        uint64_t at = round * 2654435761ul;
        uint64_t keys[2] = {at % different, at / 7 % different};
        uint32_t *row = rows[round % 8];
        for (int class = 0; class < 2; class++)
            for (int i = 0; i < 32; i++)
                if (keyed[class][keys[class]][i] > row[i]) row[i] = keyed[class][keys[class]][i];
        uint32_t made = ++counts[round % 8];
        if (made > row[round % 8]) row[round % 8] = made;
        for (int class = 0; class < 2; class++) memcpy(keyed[class][keys[class]], row, sizeof rows[0]);
    }
    printf("events %u\n", counts[0] + counts[1] + counts[2] + counts[3] + counts[4] + counts[5] + counts[6] + counts[7]);
}

int main(int words, char **word) {
    if (words < 3) return 2;
    if (strcmp(word[1], "clocks") == 0)
        clocks_of(strtoul(word[2], 0, 10));
    else if (strcmp(word[1], "events") == 0)
        events_of(strtoul(word[2], 0, 10));
    else
        printf("races %d\n", races_of(word[1], atol(word[2])));
    return 0;
}
