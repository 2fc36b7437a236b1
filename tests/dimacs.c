/* Holds dimacs against a second walk and a second writer (printf), on random sections, on each of their beginnings, with each word changed, on the clauses of puzzles
 * up to 64 by 64, and at every limit from both sides. Ends at the first wrong answer, with status 1. */
#define _DEFAULT_SOURCE
#include "haafgrim.h"
#include <limits.h>
#include <stdio.h>
#include <stdlib.h>
#include <string.h>
#include <sys/mman.h>

enum { SMALL = 400, CANARY = 0x5A, PAD = 8, PUZZLE = 20611, CELLS = 64 * 64 };

static unsigned long checks;

static void expect(int right, const char *what) {
    checks++;
    if (!right) {
        printf("wrong: %s (check %lu)\n", what, checks);
        exit(1);
    }
}

static uint32_t below(uint32_t n) {
    static uint64_t state = 1181783497276652981u;
    state ^= state << 13;
    state ^= state >> 7;
    state ^= state << 17;
    return (uint32_t)(state >> 16) % n;
}

struct answer { uint32_t number; size_t place; };

/* The verdict before 12, the number of clauses and, where it is asked for, the lines. */
static struct answer judge(size_t variables, size_t sections, const int32_t *w, size_t n, size_t *clauses, FILE *lines) {
    size_t at = 0;
    *clauses = 0;
    if (variables > 1000000)
        return (struct answer){21, 0};
    if (sections > 16)
        return (struct answer){21, 1};
    if (n > 1073741824)
        return (struct answer){21, 2};
    for (; sections > 0; sections--) {
        if (at == n || w[at] < 0)
            return (struct answer){22, at};
        for (int32_t left = w[at++]; left > 0; left--, ++*clauses) {
            if (at == n || w[at] < 0)
                return (struct answer){22, at};
            for (int32_t literals = w[at++]; literals > 0; literals--, at++) {
                if (at == n || w[at] == 0 || llabs((long long)w[at]) > (long long)variables)
                    return (struct answer){22, at};
                if (lines != NULL)
                    fprintf(lines, "%d ", w[at]);
            }
            if (lines != NULL)
                fprintf(lines, "0\n");
        }
    }
    return at < n ? (struct answer){22, at} : (struct answer){0, 0};
}

/* The whole text, by a stream in memory. */
static char *write_text(size_t variables, size_t sections, const int32_t *w, size_t n, size_t clauses, size_t *len) {
    char *text;
    FILE *stream = open_memstream(&text, len);
    expect(stream != NULL, "memory for a text");
    fprintf(stream, "p cnf %zu %zu\n", variables, clauses);
    judge(variables, sections, w, n, &clauses, stream);
    fclose(stream);
    return text;
}

static uint32_t check(size_t variables, size_t sections, const int32_t *w, size_t n) {
    size_t clauses, len = 3, place;
    struct answer x = judge(variables, sections, w, n, &clauses, NULL);
    char *text = x.number == 0 ? write_text(variables, sections, w, n, clauses, &len) : NULL;
    size_t rooms[] = {0, len - 1, len, len + 5};
    uint8_t *around = malloc(len + 5 + 2 * PAD);
    for (int i = 0; i < 4; i++) {
        size_t room = rooms[i], used = x.number == 0 && room >= len ? len : 0;
        memset(around, CANARY, len + 5 + 2 * PAD);
        uint32_t number = haafgrim_dimacs(variables, sections, w, n, around + PAD, room, &place);
        if (x.number != 0)
            expect(number == x.number && place == x.place, "dimacs refuses");
        else if (room < len)
            expect(number == 12 && place == len, "dimacs, 12");
        else
            expect(number == 0 && place == len && memcmp(around + PAD, text, len) == 0, "dimacs writes the text");
        for (size_t k = 0; k < len + 5 + 2 * PAD; k++)
            if ((k < PAD || k >= PAD + used) && around[k] != CANARY)
                expect(0, "dimacs leaves the rest");
    }
    free(around);
    free(text);
    return x.number;
}

static size_t random_sections(size_t variables, size_t sections, int32_t *w) {
    size_t n = 0;
    for (; sections > 0; sections--) {
        int32_t clauses = variables == 0 ? 0 : (int32_t)below(4);
        w[n++] = clauses;
        for (; clauses > 0; clauses--) {
            int32_t literals = (int32_t)below(5);
            w[n++] = literals;
            for (; literals > 0; literals--) {
                int32_t v = 1 + (int32_t)below((uint32_t)variables);
                w[n++] = below(2) == 0 ? v : -v;
            }
        }
    }
    return n;
}

static void small_words(void) {
    static const size_t some[] = {0, 1, 2, 9, 10, 11, 99, 100, 4095, 99999, 100000, 999999, 1000000};
    static const int32_t odd[] = {0, 1, -1, 2, 3, 10, -10, 1000000, -1000000, 1000001, -1000001, INT32_MAX, INT32_MIN, INT32_MIN + 1};
    int32_t w[SMALL];
    for (int round = 0; round < 3000; round++) {
        size_t variables = some[below(sizeof some / sizeof *some)], sections = below(17);
        size_t n = random_sections(variables, sections, w);
        expect(check(variables, sections, w, n) == 0, "good words are accepted");
        for (size_t cut = 0; cut < n; cut++)
            check(variables, sections, w, cut);
        for (size_t i = 0; i < n; i++) {
            int32_t own = w[i];
            w[i] = odd[below(sizeof odd / sizeof *odd)];
            check(variables, sections, w, n);
            w[i] = own;
        }
        w[n] = odd[below(sizeof odd / sizeof *odd)];
        check(variables, sections, w, n + 1);
        check(variables, sections + 1, w, n);
        check(below(20), sections, w, n);
    }
}

/* Every number of digits, with both signs. */
static void numbers(void) {
    for (int32_t v = 1; v <= 1000000; v += v < 2000 ? 1 : 997)
        expect(check(1000000, 1, (int32_t[]){1, 2, v, -v}, 4) == 0, "a number and its opposite");
    for (size_t v = 0; v <= 1000000; v += v < 2000 ? 1 : 997)
        expect(check(v, 0, NULL, 0) == 0, "a number of variables");
    int32_t *w = calloc(1000002, sizeof *w);
    expect(w != NULL, "memory for the words");
    for (int32_t n = 0; n <= 1000000; n = n < 1200 ? n + 1 : n * 3) {
        w[0] = n;
        expect(check(1, 1, w, (size_t)n + 1) == 0, "a number of clauses");
    }
    free(w);
}

static void limits(void) {
    size_t most = 1073741824, place = 7;
    int32_t *zeros = mmap(NULL, (most + 1) * sizeof *zeros, PROT_READ | PROT_WRITE, MAP_PRIVATE | MAP_ANONYMOUS | MAP_NORESERVE, -1, 0);
    expect(zeros != MAP_FAILED, "room for the longest words");
    expect(haafgrim_dimacs(3, 16, zeros, most, NULL, 0, &place) == 22 && place == 16, "1,073,741,824 words are walked");
    expect(haafgrim_dimacs(3, 16, zeros, most + 1, NULL, 0, &place) == 21 && place == 2, "one more is 21 at 2");
    zeros[0] = (int32_t)most - 1;
    expect(haafgrim_dimacs(3, 1, zeros, most, NULL, 0, &place) == 12 && place == 19 + 2 * (most - 1), "1,073,741,823 empty clauses, a text of over 2^31 bytes");
    zeros[0] = 0;
    expect(haafgrim_dimacs(3, 17, zeros, most + 1, NULL, 0, &place) == 21 && place == 1, "sections come before words");
    expect(haafgrim_dimacs(1000001, 17, zeros, most + 1, NULL, 0, &place) == 21 && place == 0, "variables come before sections");
    expect(haafgrim_dimacs(1000000, 16, zeros, 16, NULL, 0, &place) == 12 && place == 16, "the limits themselves are accepted");
    expect(haafgrim_dimacs(SIZE_MAX, 0, zeros, 0, NULL, 0, &place) == 21 && place == 0, "any size of variables");
    expect(haafgrim_dimacs((size_t)UINT32_MAX + 2, 0, zeros, 0, NULL, 0, &place) == 21 && place == 0, "and one that is small in 32 bits");
    expect(haafgrim_dimacs(1, SIZE_MAX, zeros, 0, NULL, 0, &place) == 21 && place == 1, "any size of sections");
    munmap(zeros, (most + 1) * sizeof *zeros);
}

/* What clauses writes is accepted, with its ten sections. */
static void puzzles(void) {
    static uint8_t grid[CELLS];
    static uint32_t puzzle[PUZZLE];
    for (int round = 0; round < 203; round++) {
        size_t side = round < 200 ? 1 + below(12) : 64, len, place;
        uint32_t colors = round < 200 ? 1 + below(4) : round == 200 ? 1 : 3;
        uint64_t counts[13];
        for (size_t i = 0; i < side * side; i++)
            grid[i] = (uint8_t)(below(2) == 0 ? 0 : 1 + below(colors));
        expect(haafgrim_read_grid(side, side, grid, side * side, puzzle, PUZZLE, &len) == 0, "a test's grid");
        expect(haafgrim_counts(puzzle, len, counts, 13, &place) == 0, "its counts");
        int32_t *words = malloc(counts[12] * sizeof *words);
        expect(words != NULL && haafgrim_clauses(puzzle, len, words, counts[12], &place) == 0, "its clauses");
        expect(check(counts[0], 10, words, counts[12]) == 0, "the clauses of a puzzle are accepted");
        free(words);
    }
}

int main(void) {
    small_words();
    numbers();
    limits();
    puzzles();
    printf("dimacs: %lu checks, 0 wrong\n", checks);
    return 0;
}
