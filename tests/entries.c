/* Holds every answer of the C entries against expectations from elsewhere: small lines and clues by trying every line
 * there is, grids cell by cell, clauses by trying every assignment and every picture, the rest by hand. Ends at the first
 * wrong answer, with status 1. */
#include "haafgrim.h"
#include <stdio.h>
#include <stdlib.h>
#include <string.h>

#define COUNT(array) (sizeof(array) / sizeof *(array))
#define WORDS(...) COUNT(((uint32_t[]){__VA_ARGS__})), {__VA_ARGS__}

/* The words of a grid are at most MOST; SPARE are lent beyond. LONGEST is a little more than a grid of 65 by 65 bytes. */
enum { PAD = 4, ROOM = 132, RANGES = 62, CELLS = 64 * 64, MOST = 20611, SPARE = 40, LONGEST = 4300 };
enum { SECTIONS = 10, NUMBERS = 13 };
enum entry { TWO_POWERS, FROM_TWO_POWERS, READ_LINE, STARTS, COLOR_RANGES, READ_GRID, TRANSPOSE, CLAUSES, COUNTS };
static const char *const names[] = {"two_powers", "from_two_powers", "read_line", "starts", "color_ranges", "read_grid",
                                    "transpose", "clauses", "counts"};

/* `sizes` are the mask of two_powers, the line length of a clue, or the width and the height of a grid. */
struct call { enum entry entry; size_t sizes[2]; const void *in; size_t in_len; };

/* The answer where the lent buffer is long enough: a refusal and its place, or the elements written. */
struct answer { uint32_t number; size_t place; size_t count; const void *out; };

/* An answer of few words, with the words. */
struct want { uint32_t number; size_t place; size_t count; uint32_t words[ROOM]; };

/* The answer and all memory that a call is shown, with words around what it is lent. Only the first words are in use. */
struct world {
    size_t number, place[3], in_used, out_used;
    uint32_t in[MOST + PAD];
    _Alignas(uint64_t) uint32_t out[PAD + MOST + SPARE + PAD];
};

/* Some of these are right in fewer bits, or have a right product. */
static const size_t wrong_sizes[] = {0, 65, 66, 257, (size_t)UINT32_MAX + 2, SIZE_MAX / 2 + 2, SIZE_MAX - 63, SIZE_MAX};

static unsigned long checks;

static size_t in_bytes(const struct call *c) {
    return c->entry == READ_LINE || c->entry == READ_GRID || c->entry == TRANSPOSE ? c->in_len : c->in_len * sizeof(uint32_t);
}

static size_t out_bytes(const struct call *c, size_t count) {
    return c->entry == TRANSPOSE ? count : count * (c->entry == COUNTS ? sizeof(uint64_t) : sizeof(uint32_t));
}

/* The words that are in use for so many bytes. */
static size_t words_for(size_t bytes) {
    size_t words = (bytes + sizeof(uint32_t) - 1) / sizeof(uint32_t);
    return words < ROOM ? ROOM : words;
}

/* What lies behind the input is no colour, so that reading it would show. */
static void prepare(struct world *w, const struct call *c, size_t out_len) {
    w->number = 0;
    w->in_used = words_for(in_bytes(c)) + PAD;
    w->out_used = PAD + words_for(out_bytes(c, out_len)) + PAD;
    memset(w->in, 0x55, w->in_used * sizeof *w->in);
    if (c->in_len != 0)
        memcpy(w->in, c->in, in_bytes(c));
    w->place[0] = w->place[1] = w->place[2] = 7000;
    for (uint32_t i = 0; i < w->out_used; i++)
        w->out[i] = 0xA5C39600u + i;
}

static void foresee(struct world *w, const struct call *c, const struct answer *x, size_t out_len) {
    w->number = x->number != 0 ? x->number : out_len < x->count ? 12 : 0;
    w->place[1] = x->number != 0 ? x->place : x->count;
    if (w->number == 0 && x->count != 0)
        memcpy(w->out + PAD, x->out, out_bytes(c, x->count));
}

/* With `nulls`, a slice of length 0 is a null pointer. */
static uint32_t perform(struct world *w, const struct call *c, size_t out_len, int nulls) {
    uint32_t *out = nulls && out_len == 0 ? NULL : w->out + PAD;
    const uint32_t *in = nulls && c->in_len == 0 ? NULL : w->in;
    const uint8_t *bytes = (const uint8_t *)in;
    const size_t *sizes = c->sizes;
    size_t *place = &w->place[1];
    switch (c->entry) {
    case TWO_POWERS: return haafgrim_two_powers((uint32_t)sizes[0], out, out_len, place);
    case FROM_TWO_POWERS: *place = 0; return haafgrim_from_two_powers(in, c->in_len);
    case READ_LINE: return haafgrim_read_line(bytes, c->in_len, out, out_len, place);
    case STARTS: return haafgrim_starts(sizes[0], in, c->in_len, out, out_len, place);
    case COLOR_RANGES: return haafgrim_color_ranges(sizes[0], in, c->in_len, out, out_len, place);
    case READ_GRID: return haafgrim_read_grid(sizes[0], sizes[1], bytes, c->in_len, out, out_len, place);
    case TRANSPOSE: return haafgrim_transpose(sizes[0], sizes[1], bytes, c->in_len, (uint8_t *)out, out_len, place);
    case CLAUSES: return haafgrim_clauses(in, c->in_len, (int32_t *)out, out_len, place);
    default: return haafgrim_counts(in, c->in_len, (uint64_t *)out, out_len, place);
    }
}

static int same(const struct world *a, const struct world *b) {
    return a->number == b->number && memcmp(a->place, b->place, sizeof a->place) == 0
        && memcmp(a->in, b->in, a->in_used * sizeof *a->in) == 0
        && memcmp(a->out, b->out, a->out_used * sizeof *a->out) == 0;
}

static void fail(const struct call *c, size_t out_len, const struct world *want, const struct world *got) {
    printf("wrong: %s, mask, length or width %zu, height %zu, lent %zu, input of %zu:", names[c->entry],
           c->sizes[0], c->sizes[1], out_len, c->in_len);
    for (size_t i = 0; i < c->in_len; i++)
        printf(" %u", in_bytes(c) == c->in_len ? ((const uint8_t *)c->in)[i] : ((const uint32_t *)c->in)[i]);
    printf("\nwanted %zu at %zu, got %zu at %zu\n", want->number, want->place[1], got->number, got->place[1]);
    for (size_t i = 0, shown = 0; i < got->out_used; i++)
        if (want->out[i] != got->out[i] && shown++ < 20)
            printf("word %d of the buffer: wanted %#x, got %#x\n", (int)i - PAD, want->out[i], got->out[i]);
    if (memcmp(want->in, got->in, got->in_used * sizeof *got->in) != 0)
        printf("the input was changed\n");
    if (want->place[0] != got->place[0] || want->place[2] != got->place[2])
        printf("what lies around the place was changed\n");
    exit(1);
}

static void check_once(struct call c, struct answer x, size_t out_len, int nulls) {
    static struct world want, got;
    prepare(&want, &c, out_len);
    prepare(&got, &c, out_len);
    foresee(&want, &c, &x, out_len);
    got.number = perform(&got, &c, out_len, nulls);
    checks++;
    if (!same(&want, &got))
        fail(&c, out_len, &want, &got);
}

static void check_lent(struct call c, struct answer x, size_t out_len) {
    check_once(c, x, out_len, 0);
    if (out_len == 0 || (c.in != NULL && c.in_len == 0))
        check_once(c, x, out_len, 1);
}

static struct answer answer_of(const struct want *x) {
    return (struct answer){x->number, x->place, x->count, x->words};
}

/* With every length of the lent buffer: up to one more than needed, or all where the call is refused. */
static void check(struct call c, const struct want *x) {
    size_t most = x->number != 0 ? ROOM : x->count + 1;
    for (size_t out_len = 0; out_len <= most; out_len++)
        check_lent(c, answer_of(x), out_len);
}

/* Every length of the lent buffer where few are needed; else none, too few, just enough and more. */
static void check_some(struct call c, struct answer x) {
    size_t need = x.number != 0 ? MOST : x.count;
    const size_t some[] = {0, 1, need / 2, need - 1, need, need + 1, need + SPARE};
    for (size_t i = 0; need <= ROOM / 2 && i <= need + PAD; i++)
        check_lent(c, x, i);
    for (size_t i = 0; need > ROOM / 2 && i < COUNT(some); i++)
        check_lent(c, x, some[i]);
}

static void push(struct want *x, uint32_t word) {
    x->words[x->count++] = word;
}

static uint32_t power(uint32_t base, size_t n) {
    return n == 0 ? 1 : base * power(base, n - 1);
}

/* Xorshift from a fixed seed: each run makes the same checks. */
static uint32_t random_word(void) {
    static uint32_t state = 20240229;
    state ^= state << 13;
    state ^= state >> 17;
    return state ^= state << 5;
}

/* ---- Lines ---- */

/* A run begins where the cell before has another colour, and takes all cells of its colour from there on. */
static void read_naively(const uint8_t *line, size_t n, struct want *runs, uint32_t *begins) {
    for (size_t from = 0; from < n; from++) {
        size_t to = from;
        if (line[from] == 0 || (from > 0 && line[from - 1] == line[from]))
            continue;
        while (to < n && line[to] == line[from])
            to++;
        begins[runs->count / 2] = (uint32_t)from;
        push(runs, (uint32_t)(to - from));
        push(runs, line[from]);
    }
}

/* Refused, or else read as it is naively. */
static void check_line(const uint8_t *line, size_t n, uint32_t number, size_t place) {
    struct want x = {.number = number, .place = place};
    uint32_t begins[64];
    if (number == 0)
        read_naively(line, n, &x, begins);
    check((struct call){READ_LINE, {0}, line, n}, &x);
}

/* The line numbered `code` of all lines of n cells over so many colours, blank is one of them. */
static void small_line(uint8_t *line, size_t n, uint32_t colors, uint32_t code) {
    for (size_t i = 0; i < n; i++, code /= colors)
        line[i] = (uint8_t)(code % colors);
}

static void small_lines(void) {
    uint8_t line[6];
    for (size_t n = 1; n <= 6; n++)
        for (uint32_t code = 0; code < power(3, n); code++) {
            small_line(line, n, 3, code);
            check_line(line, n, 0, 0);
        }
}

static void long_lines(void) {
    uint8_t line[64] = {0};
    struct want turns = {0};
    check_line(line, 64, 0, 0);
    check_line(memset(line, 31, 64), 64, 0, 0);
    for (size_t i = 0; i < 64; i++) {
        push(&turns, 1);
        push(&turns, line[i] = 1 + i % 2);
    }
    check((struct call){READ_LINE, {0}, line, 64}, &turns);
    for (int round = 0; round < 300; round++) {
        for (size_t i = 0; i < 64; i++)
            line[i] = random_word() % (round % 3 == 0 ? 32 : 3);
        check_line(line, 1 + random_word() % 64, 0, 0);
    }
}

/* A byte over 31 at each place, alone and with another one behind it; a wrong length comes before both. */
static void refused_lines(void) {
    static const size_t lengths[] = {0, 65, 66, 257, 320};
    uint8_t line[320];
    for (size_t n = 1; n <= 64; n += 21)
        for (size_t at = 0; at < n; at++) {
            memset(line, 31, n);
            line[at] = at % 2 == 0 ? 32 : 255;
            check_line(line, n, 18, at);
            line[n - 1] = 255;
            check_line(line, n, 18, at);
        }
    for (size_t i = 0; i < COUNT(lengths); i++) {
        check_line(memset(line, 31, sizeof line), lengths[i], 2, 0);
        check_line(memset(line, 32, sizeof line), lengths[i], 2, 0);
    }
}

/* ---- Clues, by trying every line ---- */

static void check_clue(size_t n, const uint32_t *clue, size_t words, const struct want *starts, const struct want *ranges) {
    check((struct call){STARTS, {n}, clue, words}, starts);
    check((struct call){COLOR_RANGES, {n}, clue, words}, ranges);
}

static void check_refused(size_t n, const uint32_t *clue, size_t words, uint32_t number, size_t place) {
    struct want x = {.number = number, .place = place};
    check_clue(n, clue, words, &x, &x);
}

/* The least and the greatest of some numbers; `least` is 99 for none. */
struct span { uint32_t least, greatest; };

static void widen(struct span *s, uint32_t x) {
    s->least = x < s->least ? x : s->least;
    s->greatest = x > s->greatest ? x : s->greatest;
}

/* Over all lines that read as the clue: the starts of each block and the cells of each colour. Answers how many there are. */
static size_t try_lines(size_t n, const uint32_t *clue, size_t words, struct span *starts, struct span *cells) {
    size_t found = 0;
    for (uint32_t code = 0; code < power(3, n); code++) {
        uint8_t line[6];
        uint32_t begins[6];
        struct want runs = {0};
        small_line(line, n, 3, code);
        read_naively(line, n, &runs, begins);
        if (runs.count != words || memcmp(runs.words, clue, words * sizeof *clue) != 0)
            continue;
        found++;
        for (size_t b = 0; b < words / 2; b++)
            widen(&starts[b], begins[b]);
        for (uint32_t i = 0; i < n; i++)
            widen(&cells[line[i]], i);
    }
    return found;
}

/* The call names one p for all blocks; where a block had another number of starts, 99 would be wanted, which never comes. */
static void small_clue(uint32_t n, const uint32_t *clue, size_t blocks) {
    struct span s[3] = {{99, 0}, {99, 0}, {99, 0}}, cells[3] = {{99, 0}, {99, 0}, {99, 0}};
    struct want starts = {.count = 2}, ranges = {.count = RANGES};
    if (try_lines(n, clue, 2 * blocks, s, cells) == 0) {
        check_refused(n, clue, 2 * blocks, 6, 0);
        return;
    }
    starts.words[0] = blocks == 0 ? n + 1 : s[0].greatest - s[0].least + 1;
    starts.words[1] = n + 1 - starts.words[0];
    for (size_t b = 0; b < blocks; b++)
        push(&starts, s[b].greatest == s[b].least + starts.words[0] - 1 ? s[b].least : 99);
    for (size_t k = 1; k <= 2; k++)
        if (cells[k].least != 99) {
            ranges.words[2 * k - 2] = cells[k].least;
            ranges.words[2 * k - 1] = cells[k].greatest + 1;
        }
    check_clue(n, clue, 2 * blocks, &starts, &ranges);
}

static void small_clues(void) {
    uint32_t clue[6];
    for (uint32_t n = 1; n <= 6; n++)
        for (size_t blocks = 0; blocks <= 3; blocks++)
            for (uint32_t code = 0; code < power(6, blocks); code++) {
                for (size_t b = 0; b < blocks; b++) {
                    clue[2 * b] = 1 + code / power(6, b) % 3;
                    clue[2 * b + 1] = 1 + code / power(6, b) / 3 % 2;
                }
                small_clue(n, clue, blocks);
            }
}

/* ---- Clues by hand ---- */

/* P3 and P4 name no length, so they are taken at the least and the greatest. A range is a colour, a first cell and an end. */
static void by_hand(void) {
    static const struct { size_t length, words; uint32_t clue[6], starts[5], ranges[2][3]; } rows[] = {
        {3, WORDS(1, 1, 1, 1), {1, 3, 0, 2}, {{1, 0, 3}}},                               /* P3 */
        {64, WORDS(1, 1, 1, 1), {62, 3, 0, 2}, {{1, 0, 64}}},                            /* P3 */
        {3, WORDS(1, 1, 1, 2, 1, 1), {1, 3, 0, 1, 2}, {{1, 0, 3}, {2, 1, 2}}},           /* P4 */
        {64, WORDS(1, 1, 1, 2, 1, 1), {62, 3, 0, 1, 2}, {{1, 0, 64}, {2, 1, 63}}},       /* P4 */
        {4, WORDS(2, 1, 1, 2), {2, 3, 0, 2}, {{1, 0, 3}, {2, 2, 4}}},                    /* P5 */
        {64, 0, {0}, {65, 0}, {{0}}},
        {1, WORDS(1, 31), {1, 1, 0}, {{31, 0, 1}}},
        {64, WORDS(1, 31), {64, 1, 0}, {{31, 0, 64}}},
        {64, WORDS(64, 1), {1, 64, 0}, {{1, 0, 64}}},
        {64, WORDS(32, 31, 32, 1), {1, 64, 0, 32}, {{31, 0, 32}, {1, 32, 64}}},
        {64, WORDS(32, 7, 31, 7), {1, 64, 0, 33}, {{7, 0, 64}}},
        {64, WORDS(3, 9, 40, 2, 5, 9), {17, 48, 0, 3, 43}, {{9, 0, 64}, {2, 3, 59}}},
    };
    struct want p1 = {.count = 4, .words = {2, 1, 1, 2}};
    check((struct call){READ_LINE, {0}, (const uint8_t[]){0, 0, 1, 1, 0, 2}, 6}, &p1);
    for (size_t i = 0; i < COUNT(rows); i++) {
        struct want starts = {.count = 2 + rows[i].words / 2}, ranges = {.count = RANGES};
        memcpy(starts.words, rows[i].starts, sizeof rows[i].starts);
        for (const uint32_t *r = rows[i].ranges[0]; r <= rows[i].ranges[1]; r += 3)
            if (r[0] != 0)
                memcpy(&ranges.words[2 * r[0] - 2], &r[1], 2 * sizeof *r);
        check_clue(rows[i].length, rows[i].clue, rows[i].words, &starts, &ranges);
    }
}

/* Blocks of one size whose colours go round from 1 to `colors`. */
static void fill(uint32_t *clue, size_t blocks, uint32_t size, uint32_t colors) {
    for (size_t b = 0; b < blocks; b++) {
        clue[2 * b] = size;
        clue[2 * b + 1] = 1 + b % colors;
    }
}

/* Blocks of one cell: side by side, or at every second cell where they share one colour. */
static void single_cells(uint32_t length, uint32_t blocks, uint32_t colors) {
    uint32_t clue[128], step = colors == 1 ? 2 : 1, space = (blocks - 1) * step + 1;
    struct want starts = {.count = 2 + blocks, .words = {length - space + 1, space}}, ranges = {.count = RANGES};
    fill(clue, blocks, 1, colors);
    for (uint32_t b = 0; b < blocks; b++) {
        starts.words[2 + b] = b * step;
        if (b < colors)
            ranges.words[2 * b] = b * step;
        ranges.words[2 * (b % colors) + 1] = b * step + 1 + length - space;
    }
    check_clue(length, clue, 2 * blocks, &starts, &ranges);
}

static void many_blocks(void) {
    static const uint32_t rows[][3] = {{64, 64, 2}, {64, 64, 31}, {64, 63, 3}, {40, 31, 31}, {63, 32, 1}, {64, 32, 1}};
    for (size_t i = 0; i < COUNT(rows); i++)
        single_cells(rows[i][0], rows[i][1], rows[i][2]);
}

/* ---- Refused clues ---- */

/* Many rows have a second fault, which comes later in the order. */
static void refused_rows(void) {
    static const struct { size_t length, words; uint32_t clue[8], number; size_t place; } rows[] = {
        {64, WORDS(1), 1, 1}, {64, WORDS(0), 1, 1}, {64, WORDS(1, 32, 1), 1, 3}, {1, WORDS(0, 0, 0, 0, 0), 1, 5},
        {64, WORDS(0, 1), 4, 0}, {64, WORDS(0, 0), 4, 0}, {64, WORDS(0, 32, 65, 1), 4, 0}, {64, WORDS(1, 1, 0, 32), 4, 2},
        {64, WORDS(65, 1, 0, 1), 4, 2}, {64, WORDS(0, 1, 1, 32), 4, 0}, {2, WORDS(1, 1, 1, 1, 0, 1), 4, 4},
        {64, WORDS(1, 0), 5, 1}, {64, WORDS(1, 32), 5, 1}, {64, WORDS(1, UINT32_MAX), 5, 1}, {64, WORDS(1, 257), 5, 1},
        {64, WORDS(1, 65537), 5, 1}, {64, WORDS(1, 0, 0, 1), 5, 1}, {64, WORDS(1, 32, 0, 0), 5, 1},
        {64, WORDS(65, 1, 1, 0), 5, 3}, {64, WORDS(1, 31, 1, 32), 5, 3}, {64, WORDS(UINT32_MAX, 1, 2, 1, 1, 0), 5, 5},
        {64, WORDS(65, 1), 6, 0}, {63, WORDS(64, 31), 6, 0}, {2, WORDS(1, 1, 1, 1), 6, 0}, {1, WORDS(1, 1, 1, 2), 6, 0},
        {64, WORDS(32, 7, 32, 7), 6, 0}, {64, WORDS(32, 7, 33, 8), 6, 0}, {63, WORDS(32, 7, 31, 7), 6, 0},
        {64, WORDS(UINT32_MAX, 1), 6, 0}, {64, WORDS(UINT32_MAX, 1, 2, 1), 6, 0}, {64, WORDS(UINT32_MAX, 1, 2, 2), 6, 0},
        {64, WORDS(UINT32_MAX, 1, 1, 2), 6, 0}, {64, WORDS(UINT32_MAX, 1, 1, 1), 6, 0}, {64, WORDS(1, 1, UINT32_MAX, 1), 6, 0},
        {64, WORDS(257, 1), 6, 0}, {64, WORDS(65537, 1), 6, 0}, {64, WORDS(1u << 31, 1, 1u << 31, 2), 6, 0},
        {64, WORDS(1u << 30, 1, 1u << 30, 2, 1u << 30, 1, 1u << 30, 2), 6, 0},
    };
    for (size_t i = 0; i < COUNT(rows); i++)
        check_refused(rows[i].length, rows[i].clue, rows[i].words, rows[i].number, rows[i].place);
}

/* First a wrong length, then an odd number of words, then too many blocks, whatever the words are. */
static void refused_sizes(const uint32_t *clue) {
    for (size_t words = 0; words <= ROOM; words++) {
        for (size_t i = 0; i < COUNT(wrong_sizes); i++)
            check_refused(wrong_sizes[i], clue, words, 2, 0);
        if (words % 2 == 1)
            check_refused(64, clue, words, 1, words);
        else if (words > 128)
            check_refused(64, clue, words, 3, 0);
    }
}

/* Sizes whose sum wraps in 32 bits, and faults at the last of 64 blocks. */
static void refused_long(void) {
    uint32_t clue[ROOM] = {0};
    refused_sizes(clue);
    for (uint32_t colors = 1; colors <= 2; colors++)
        for (size_t blocks = 1; blocks <= 64; blocks++) {
            fill(clue, blocks, UINT32_MAX, colors);
            check_refused(64, clue, 2 * blocks, 6, 0);
        }
    fill(clue, 64, 1u << 26, 2);
    check_refused(64, clue, 128, 6, 0);
    fill(clue, ROOM / 2, 1, 2);
    refused_sizes(clue);
    check_refused(63, clue, 128, 6, 0);
    clue[127] = 32;
    check_refused(63, clue, 128, 5, 127);
    clue[126] = 0;
    check_refused(63, clue, 128, 4, 126);
}

/* ---- Powers of two ---- */

static int has_bit(uint32_t word, size_t k) {
    return word / power(2, k) % 2 == 1;
}

/* A bit of the answer stands where some word has it. */
static void check_join(const uint32_t *words, size_t n) {
    struct want x = {0};
    for (size_t k = 0; k < 32; k++)
        for (size_t i = 0; i < n; i++)
            if (has_bit(words[i], k)) {
                x.number += power(2, k);
                break;
            }
    for (int nulls = 0; nulls <= (n == 0); nulls++)
        check_once((struct call){FROM_TWO_POWERS, {0}, words, n}, answer_of(&x), 0, nulls);
}

static void check_mask(uint32_t mask) {
    struct want x = {0};
    for (size_t k = 0; k < 32; k++)
        if (has_bit(mask, k))
            push(&x, power(2, k));
    check((struct call){TWO_POWERS, {mask}, NULL, 0}, &x);
    check_join(x.words, x.count);
}

static void masks(void) {
    for (uint32_t mask = 0; mask <= 65535; mask++)
        check_mask(mask);
    for (size_t k = 0; k < 32; k++)
        check_mask(power(2, k));
    check_mask(UINT32_MAX);
    for (int i = 0; i < 4000; i++)
        check_mask(random_word());
}

/* Repeated powers in even rounds, any words in odd ones. */
static void joins(void) {
    uint32_t words[ROOM];
    for (size_t round = 0; round < 4000; round++) {
        size_t n = random_word() % (round < 2000 ? 6 : ROOM + 1);
        for (size_t i = 0; i < n; i++)
            words[i] = round % 2 == 0 ? power(2, random_word() % 8) : random_word() & random_word() & random_word();
        check_join(words, n);
    }
}

/* ---- Grids ---- */

static void check_grid_call(enum entry entry, size_t width, size_t height, const uint8_t *cells, size_t n, struct answer x) {
    check_some((struct call){entry, {width, height}, cells, n}, x);
}

/* The number of blocks of a line, and its blocks. Answers how many words these are. */
static size_t clue_naively(const uint8_t *line, size_t n, uint32_t *words) {
    uint32_t begins[64];
    struct want runs = {0};
    read_naively(line, n, &runs, begins);
    words[0] = (uint32_t)runs.count / 2;
    memcpy(words + 1, runs.words, runs.count * sizeof *words);
    return 1 + runs.count;
}

/* A colour is in the rows where some cell has it. */
static uint32_t mask_naively(const uint8_t *cells, size_t n) {
    uint32_t mask = 1;
    for (int k = 1; k <= 31; k++)
        if (memchr(cells, k, n) != NULL)
            mask += power(2, (size_t)k);
    return mask == 1 ? 3 : mask;
}

static size_t puzzle_naively(size_t width, size_t height, const uint8_t *cells, uint32_t *words) {
    uint32_t mask = mask_naively(cells, width * height);
    size_t n = 0;
    words[n++] = (uint32_t)width;
    for (size_t x = 0; x < width; x++) {
        uint8_t column[64];
        for (size_t y = 0; y < height; y++)
            column[y] = cells[y * width + x];
        n += clue_naively(column, height, words + n);
    }
    words[n++] = (uint32_t)height;
    for (size_t y = 0; y < height; y++)
        n += clue_naively(cells + y * width, width, words + n);
    words[n++] = (uint32_t)(width * height);
    for (size_t i = 0; i < width * height; i++)
        words[n++] = mask;
    return n;
}

/* The cell in column x of row y is in column y of row x; and the answer itself, transposed, is the grid. */
static void check_turned(size_t width, size_t height, const uint8_t *cells) {
    uint8_t turned[CELLS], got[CELLS];
    size_t n = width * height, place;
    for (size_t i = 0; i < n; i++)
        turned[i % width * height + i / width] = cells[i];
    check_grid_call(TRANSPOSE, width, height, cells, n, (struct answer){0, 0, n, turned});
    haafgrim_transpose(width, height, cells, n, got, n, &place);
    check_grid_call(TRANSPOSE, height, width, got, n, (struct answer){0, 0, n, cells});
}

/* How many words a section of clues has, with its count. */
static size_t section_length(const uint32_t *words) {
    size_t n = 1;
    for (uint32_t line = 0; line < words[0]; line++)
        n += 1 + 2 * words[n];
    return n;
}

/* The transposed grid has the columns' clues as its rows', the rows' as its columns', and the same masks: the entries' own
 * answers against each other. */
static void check_read_turned(size_t width, size_t height, const uint8_t *cells, size_t need) {
    static uint32_t words[MOST], swapped[MOST];
    uint8_t turned[CELLS];
    size_t n = width * height, place, columns, rows;
    haafgrim_transpose(width, height, cells, n, turned, n, &place);
    haafgrim_read_grid(width, height, cells, n, words, need, &place);
    columns = section_length(words);
    rows = section_length(words + columns);
    memcpy(swapped, words + columns, rows * sizeof *words);
    memcpy(swapped + rows, words, columns * sizeof *words);
    memcpy(swapped + rows + columns, words + columns + rows, (need - columns - rows) * sizeof *words);
    check_grid_call(READ_GRID, height, width, turned, n, (struct answer){0, 0, need, swapped});
}

static void check_grid(size_t width, size_t height, const uint8_t *cells) {
    static uint32_t words[MOST];
    size_t need = puzzle_naively(width, height, cells, words);
    check_grid_call(READ_GRID, width, height, cells, width * height, (struct answer){0, 0, need, words});
    check_turned(width, height, cells);
    check_read_turned(width, height, cells, need);
}

/* The grids of P8, P10, P11 and P12, P1 as a grid of one row, and one with more colours. */
static void grids_by_hand(void) {
    static const struct { size_t width, height; uint8_t cells[6]; size_t count; uint32_t words[40]; } rows[] = {
        {1, 1, {1}, WORDS(1, 1, 1, 1, 1, 1, 1, 1, 1, 3)},
        {2, 1, {1, 0}, WORDS(2, 1, 1, 1, 0, 1, 1, 1, 1, 2, 3, 3)},
        {2, 2, {1, 0, 0, 1}, WORDS(2, 1, 1, 1, 1, 1, 1, 2, 1, 1, 1, 1, 1, 1, 4, 3, 3, 3, 3)},
        {1, 1, {0}, WORDS(1, 0, 1, 0, 1, 3)},
        {6, 1, {0, 0, 1, 1, 0, 2}, WORDS(6, 0, 0, 1, 1, 1, 1, 1, 1, 0, 1, 1, 2, 1, 2, 2, 1, 1, 2, 6, 7, 7, 7, 7, 7, 7)},
        {3, 2, {5, 5, 31, 0, 5, 5}, WORDS(3, 1, 1, 5, 1, 2, 5, 2, 1, 31, 1, 5, 2, 2, 2, 5, 1, 31, 1, 2, 5, 6,
            0x80000021, 0x80000021, 0x80000021, 0x80000021, 0x80000021, 0x80000021)},
    };
    for (size_t i = 0; i < COUNT(rows); i++)
        check_grid_call(READ_GRID, rows[i].width, rows[i].height, rows[i].cells, rows[i].width * rows[i].height,
                        (struct answer){0, 0, rows[i].count, rows[i].words});
    check_grid_call(TRANSPOSE, 3, 2, rows[5].cells, 6, (struct answer){0, 0, 6, (const uint8_t[]){5, 0, 5, 5, 31, 5}});
}

static void small_grids(void) {
    uint8_t cells[9];
    for (size_t width = 1; width <= 3; width++)
        for (size_t height = 1; height <= 3; height++)
            for (uint32_t code = 0; code < power(3, width * height); code++) {
                small_line(cells, width * height, 3, code);
                check_grid(width, height, cells);
            }
}

/* Single cells of two colours in turn: no grid has more words. */
static void chessboard(void) {
    static uint32_t words[MOST];
    uint8_t cells[CELLS];
    size_t n = 0;
    for (uint32_t direction = 0; direction < 2; direction++) {
        words[n++] = 64;
        for (uint32_t line = 0; line < 64; line++) {
            words[n++] = 64;
            for (uint32_t i = 0; i < 64; i++) {
                words[n++] = 1;
                words[n++] = cells[64 * line + i] = 1 + (line + i) % 2;
            }
        }
    }
    words[n++] = CELLS;
    while (n < MOST)
        words[n++] = 7;
    check_grid_call(READ_GRID, 64, 64, cells, CELLS, (struct answer){0, 0, n, words});
    check_grid(64, 64, cells);
}

/* Blank, of one colour, and striped either way: each line across the stripes has a run a cell. */
static void plain_grids(void) {
    static const size_t sizes[][2] = {{64, 64}, {64, 1}, {1, 64}, {63, 64}, {64, 2}, {5, 63}};
    uint8_t cells[CELLS];
    for (size_t s = 0; s < COUNT(sizes); s++) {
        size_t width = sizes[s][0], height = sizes[s][1];
        for (int color = 0; color <= 31; color++)
            check_grid(width, height, memset(cells, color, CELLS));
        for (size_t colors = 2; colors <= 31; colors += 29)
            for (int upright = 0; upright < 2; upright++) {
                for (size_t i = 0; i < width * height; i++)
                    cells[i] = (uint8_t)(1 + (upright ? i % width : i / width) % colors);
                check_grid(width, height, cells);
            }
    }
    chessboard();
}

/* Cells at random; in three of four grids many are as the cell before or above, so that runs are longer. */
static void random_cells(uint8_t *cells, size_t width, size_t height, uint32_t colors) {
    uint32_t copied = random_word() % 4;
    for (size_t i = 0; i < width * height; i++) {
        size_t back = random_word() % 2 == 0 ? 1 : width;
        cells[i] = i >= back && random_word() % 4 < copied ? cells[i - back] : (uint8_t)(random_word() % (colors + 1));
    }
}

/* Each size up to 64 by 64 once, and some often. */
static void random_grids(void) {
    static const uint32_t colors[] = {1, 4, 31};
    uint8_t cells[CELLS];
    for (size_t round = 0; round < CELLS + 600; round++) {
        size_t any = round < CELLS ? round : random_word() % CELLS, width = 1 + any % 64, height = 1 + any / 64;
        random_cells(cells, width, height, colors[round % 3]);
        check_grid(width, height, cells);
    }
}

static void turned_grids(void) {
    uint8_t cells[CELLS];
    for (size_t width = 1; width <= 64; width++)
        for (size_t height = 1; height <= 64; height++) {
            for (size_t i = 0; i < width * height; i++)
                cells[i] = (uint8_t)(random_word() >> 7);
            check_turned(width, height, cells);
        }
}

/* ---- Refused grids ---- */

static void check_refused_grid(size_t width, size_t height, const uint8_t *cells, size_t n, uint32_t number, size_t place) {
    check_grid_call(READ_GRID, width, height, cells, n, (struct answer){number, place, 0, NULL});
    if (number != 18)
        check_grid_call(TRANSPOSE, width, height, cells, n, (struct answer){number, place, 0, NULL});
    else
        check_turned(width, height, cells);
}

/* With any length and any cells; where both sizes are wrong, the width comes first. */
static void refused_grid_sizes(void) {
    static const size_t right_sizes[] = {1, 2, 64}, lengths[] = {0, 1, 2, 64, 65, 128, CELLS, 65 * 64, 65 * 65};
    uint8_t cells[LONGEST];
    for (size_t i = 0; i < COUNT(wrong_sizes) * COUNT(lengths); i++) {
        size_t wrong = wrong_sizes[i % COUNT(wrong_sizes)], n = lengths[i / COUNT(wrong_sizes)];
        for (int byte = 0; byte <= 255; byte += 255) {
            memset(cells, byte, sizeof cells);
            for (size_t s = 0; s < COUNT(wrong_sizes); s++)
                check_refused_grid(wrong, wrong_sizes[s], cells, n, 2, 0);
            for (size_t s = 0; s < COUNT(right_sizes); s++) {
                check_refused_grid(wrong, right_sizes[s], cells, n, 2, 0);
                check_refused_grid(right_sizes[s], wrong, cells, n, 2, 1);
            }
        }
    }
}

/* Shorter and longer grids, also where a cell is no colour. */
static void refused_grid_lengths(void) {
    static const size_t sizes[] = {1, 2, 3, 8, 31, 63, 64};
    uint8_t cells[LONGEST];
    for (size_t i = 0; i < COUNT(sizes) * COUNT(sizes); i++) {
        size_t width = sizes[i % COUNT(sizes)], height = sizes[i / COUNT(sizes)], n = width * height;
        const size_t lengths[] = {0, 1, n / 2, n - width, n - height, n - 1, n + 1, n + width, n + height, CELLS, LONGEST};
        for (int byte = 0; byte <= 255; byte += 255)
            for (size_t k = 0; k < COUNT(lengths); k++)
                if (lengths[k] != n)
                    check_refused_grid(width, height, memset(cells, byte, LONGEST), lengths[k], 7, lengths[k]);
    }
}

/* A byte over 31 at each place (every 13th of a large grid), alone and with others behind it, some in earlier columns. */
static void refused_grid_cells(void) {
    static const size_t sizes[][3] = {{1, 1, 1}, {1, 64, 1}, {64, 1, 1}, {2, 2, 1}, {3, 2, 1}, {8, 9, 1}, {64, 64, 13}};
    uint8_t cells[CELLS];
    for (size_t s = 0; s < COUNT(sizes); s++) {
        size_t width = sizes[s][0], height = sizes[s][1], n = width * height;
        for (size_t at = 0; at < n; at += sizes[s][2]) {
            random_cells(cells, width, height, 31);
            cells[at] = at % 2 == 0 ? 32 : 255;
            check_refused_grid(width, height, cells, n, 18, at);
            cells[at + random_word() % (n - at)] = 64;
            cells[n - 1] = 255;
            check_refused_grid(width, height, cells, n, 18, at);
            memset(cells + at, 33, n - at);
            check_refused_grid(width, height, cells, n, 18, at);
        }
    }
    for (unsigned byte = 32; byte <= 255; byte++)
        check_refused_grid(2, 3, (const uint8_t[]){0, 31, 1, (uint8_t)byte, 32, 0}, 6, 18, 3);
}

/* ---- Clauses by hand ---- */

static struct call puzzle_call(enum entry entry, const uint32_t *puzzle, size_t n) {
    return (struct call){entry, {0}, puzzle, n};
}

/* With every length of the lent buffer up to two more than needed. */
static void check_all(struct call c, struct answer x) {
    for (size_t out_len = 0; out_len <= x.count + 2; out_len++)
        check_lent(c, x, out_len);
}

/* P8 (P9 is P8 in 25 words), P10 and P12; cells column by column in sections 7 to 9 and row by row in 10; different
 * colours that may touch, so that section 6 has one clause; four positions; masks with K = 3 and 31: blank, 31, blank or 3,
 * two bits outside K. */
static void clauses_by_hand(void) {
    static const struct {
        size_t n;
        uint32_t puzzle[20];
        size_t count;
        int32_t clauses[120];
        uint64_t numbers[NUMBERS];
    } rows[] = {
        {WORDS(1, 1, 1, 1, 1, 1, 1, 1, 1, 3),
         WORDS(1, 1, 1, 1, 1, 2, 0, 0, 0, 0, 2, 2, 1, -3, 2, 2, -3, 2, 2, -1, 3, 2, -2, 3, 0, 0),
         {3, 1, 1, 0, 0, 0, 0, 2, 2, 0, 0, 10, 26}},
        {WORDS(2, 1, 1, 1, 0, 1, 1, 1, 1, 2, 3, 3),
         WORDS(1, 1, 1, 1, 2, 2, 3, 0, 1, 2, -2, -3, 0, 0, 4, 2, 1, -4, 2, 2, -4, 1, -5, 2, 3, -5,
               3, 2, -1, 4, 2, -2, 4, 2, -3, 5, 0, 0),
         {5, 1, 1, 0, 1, 0, 0, 4, 3, 0, 0, 18, 38}},
        {WORDS(1, 0, 1, 0, 1, 3),
         WORDS(0, 0, 0, 0, 0, 0, 2, 1, -1, 1, -1, 0, 0, 0),
         {1, 0, 0, 0, 0, 0, 0, 2, 0, 0, 0, 2, 14}},
        {WORDS(2, 1, 1, 1, 1, 1, 2, 2, 1, 1, 1, 1, 1, 2, 4, 7, 2, 5, 7),
         WORDS(2, 2, 1, 2, 2, 3, 4, 2, 2, 5, 6, 2, 7, 8, 2, 2, -1, -2, 2, -3, -4, 2, 2, -5, -6, 2, -7, -8, 0, 0,
               16, 2, 1, -9, 2, 5, -9, 1, -10, 1, -10, 2, 2, -13, 1, -13, 1, -14, 2, 7, -14,
               1, -11, 2, 6, -11, 2, 3, -12, 1, -12, 1, -15, 1, -15, 2, 4, -16, 2, 8, -16,
               8, 2, -1, 9, 2, -5, 9, 2, -2, 13, 2, -7, 14, 2, -6, 11, 2, -3, 12, 2, -4, 16, 2, -8, 16,
               4, 2, -9, -10, 2, -13, -14, 2, -11, -12, 2, -15, -16, 2, 1, 11, 1, -13),
         {16, 2, 2, 2, 2, 0, 0, 16, 8, 4, 2, 66, 114}},
        {WORDS(3, 0, 0, 0, 1, 2, 1, 1, 1, 2, 3, 7, 7, 7),
         WORDS(0, 2, 2, 1, 2, 2, 3, 4, 0, 2, 2, -1, -2, 2, -3, -4, 0, 1, 2, -2, -3,
               12, 1, -5, 2, 1, -5, 1, -6, 1, -6, 1, -7, 2, 2, -7, 1, -8, 2, 3, -8, 1, -9, 1, -9, 1, -10, 2, 4, -10,
               4, 2, -1, 5, 2, -2, 7, 2, -3, 8, 2, -4, 10, 3, 2, -5, -6, 2, -7, -8, 2, -9, -10, 0),
         {10, 0, 2, 0, 2, 0, 1, 12, 4, 3, 0, 40, 74}},
        {WORDS(4, 0, 0, 0, 0, 1, 1, 1, 1, 4, 3, 3, 3, 3),
         WORDS(0, 1, 4, 1, 2, 3, 4, 0, 6, 2, -1, -2, 2, -1, -3, 2, -1, -4, 2, -2, -3, 2, -2, -4, 2, -3, -4, 0, 0,
               8, 1, -5, 2, 1, -5, 1, -6, 2, 2, -6, 1, -7, 2, 3, -7, 1, -8, 2, 4, -8,
               4, 2, -1, 5, 2, -2, 6, 2, -3, 7, 2, -4, 8, 0, 0),
         {8, 0, 1, 0, 6, 0, 0, 8, 4, 0, 0, 36, 65}},
        {WORDS(1, 0, 4, 1, 1, 3, 1, 1, 31, 0, 0, 4, 1, 1u << 31, 9, 36),
         WORDS(0, 2, 1, 1, 1, 2, 0, 0, 0, 0, 16, 1, -3, 2, 1, -3, 1, -4, 1, -4, 1, -5, 1, -5, 1, -6, 2, 2, -6,
               1, -7, 1, -7, 1, -8, 1, -8, 1, -9, 1, -9, 1, -10, 1, -10, 2, 2, -1, 3, 2, -2, 6,
               4, 2, -3, -4, 2, -5, -6, 2, -7, -8, 2, -9, -10, 6, 1, -3, 1, -4, 1, 6, 1, -8, 1, -9, 1, -10),
         {10, 0, 2, 0, 0, 0, 0, 16, 2, 4, 6, 38, 78}},
    };
    for (size_t i = 0; i < COUNT(rows); i++) {
        check_all(puzzle_call(CLAUSES, rows[i].puzzle, rows[i].n), (struct answer){0, 0, rows[i].count, rows[i].clauses});
        check_all(puzzle_call(COUNTS, rows[i].puzzle, rows[i].n), (struct answer){0, 0, NUMBERS, rows[i].numbers});
    }
}

/* Document 01's changes of P8, and more; many rows have a second fault, which comes later in the order, and a short buffer
 * comes last of all. */
static void refused_puzzles(void) {
    static const struct { size_t n; uint32_t puzzle[16], number; size_t place; } rows[] = {
        {0, {0}, 1, 0}, {WORDS(0, 1, 1, 1, 1, 1, 1, 1, 1, 3), 2, 0}, {WORDS(65, 1, 1, 1, 1, 1, 1, 1, 1, 3), 2, 0},
        {WORDS(1, 1, 2, 1, 1, 1, 1, 1, 1, 3), 6, 0}, {WORDS(1, 1, 1, 2, 1, 1, 1, 1, 1, 3), 9, 0},
        {WORDS(1, 1, 1, 1, 1, 1, 1, 1, 1, 0), 8, 9}, {WORDS(1, 1, 1, 1, 1, 1, 1, 1, 1, 4), 10, 0},
        {WORDS(1, 1, 1, 1, 1, 1, 1, 1, 1, 3, 1), 11, 10},
        {WORDS(1), 1, 1}, {WORDS(1, 1, 1, 1, 1, 1, 1, 1, 1), 1, 9}, {WORDS(2, 0), 1, 2}, {WORDS(1, 0, 0, 65), 2, 2},
        {WORDS(1, 65, 0), 3, 1}, {WORDS(1, 0, 1, UINT32_MAX), 3, 3}, {WORDS(1, 1, 0), 4, 2}, {WORDS(1, 1, 0, 0, 0), 4, 2},
        {WORDS(1, 1, 1, 32, 0), 5, 3}, {WORDS(1, 0, 1, 1, 1, 0, 2), 5, 5}, {WORDS(1, 1, 2, 1, 1, 1, 0, 1, 1, 3), 4, 6},
        {WORDS(1, 1, 2, 1, 1, 1, 1, 1, 1, 0), 8, 9}, {WORDS(1, 1, 2, 1, 1, 1, 1, 1, 2, 3), 7, 8},
        {WORDS(1, 1, 2, 1, 1, 1, 1, 1, 1, 3, 7), 11, 10}, {WORDS(1, 1, 1, 1, 1, 1, 2, 1, 1, 3), 6, 1},
        {WORDS(1, 1, 2, 2, 1, 1, 1, 1, 1, 4), 6, 0}, {WORDS(1, 1, 1, 2, 1, 1, 1, 1, 1, 4), 9, 0},
        {WORDS(2, 0, 1, 1, 2, 1, 0, 2, 3, 3), 9, 1}, {WORDS(2, 0, 0, 1, 0, 2, 3, 8), 10, 1},
        {WORDS(1, 2, UINT32_MAX, 1, 2, 1, 1, 1, 1, 1, 1, 3), 6, 0},
    };
    for (size_t i = 0; i < COUNT(rows); i++) {
        struct want x = {.number = rows[i].number, .place = rows[i].place};
        check(puzzle_call(CLAUSES, rows[i].puzzle, rows[i].n), &x);
        check(puzzle_call(COUNTS, rows[i].puzzle, rows[i].n), &x);
    }
}

/* ---- Clauses against what they say ---- */

static void expect(int right, const char *what, const uint32_t *puzzle, size_t n) {
    checks++;
    if (right)
        return;
    printf("wrong: %s; the puzzle of %zu:", what, n);
    for (size_t i = 0; i < n; i++)
        printf(" %u", puzzle[i]);
    printf("\n");
    exit(1);
}

static size_t variable_of(int32_t literal) {
    return (size_t)(literal < 0 ? -(int64_t)literal : literal);
}

/* The next word; behind the end -1, which is no count. */
static int32_t next_word(const int32_t *words, size_t n, size_t *at) {
    return *at < n ? words[(*at)++] : -1;
}

/* The numbers that counts has to write, found by walking the words of the clauses. The largest variable is their number, since
 * section 7 names every cell's. Where each clause begins goes to `begins`, if there is such. */
static void walk(const int32_t *words, size_t n, uint64_t *numbers, size_t *begins) {
    size_t at = 0;
    memset(numbers, 0, NUMBERS * sizeof *numbers);
    for (size_t section = 1; section <= SECTIONS; section++) {
        int32_t clauses = next_word(words, n, &at);
        numbers[section] = (uint64_t)clauses;
        for (int32_t c = 0; c < clauses && at < n; c++) {
            if (begins != NULL)
                *begins++ = at;
            int32_t literals = next_word(words, n, &at);
            numbers[SECTIONS + 1] += (uint64_t)literals;
            for (int32_t i = 0; i < literals; i++) {
                size_t v = variable_of(next_word(words, n, &at));
                numbers[0] = v > numbers[0] ? v : numbers[0];
            }
        }
    }
    numbers[SECTIONS + 2] = at;
}

/* A puzzle of at most SMALL cells, PICTURES pictures and FEW words of clauses. The palette is blank and K. The clauses whose
 * last variable is v are linked from head[v] on, each by the place where it begins; 0 ends them, since no clause begins there. */
enum { SMALL = 10, PICTURES = 65536, FEW = 4000 };
struct small {
    const uint32_t *puzzle, *lines[2 * SMALL], *masks;
    size_t n, width, height, variables, head[FEW], next[FEW];
    int32_t words[FEW];
    uint8_t palette[32], truth[FEW];
    uint32_t colors, found[PICTURES];
};

/* The set bits, as numbers. */
static uint32_t bits_of(uint32_t mask, uint8_t *bits) {
    uint32_t n = 0;
    for (uint8_t k = 0; k < 32; k++)
        if (has_bit(mask, k))
            bits[n++] = k;
    return n;
}

/* The lines, where their block counts stand; the masks; and the palette, with 1 where no row has a block. */
static void open_puzzle(struct small *z, const uint32_t *puzzle, size_t n) {
    size_t line = 0, at = 0;
    uint32_t mask = 1;
    z->puzzle = puzzle;
    z->n = n;
    z->width = puzzle[0];
    for (int direction = 0; direction < 2; direction++) {
        z->height = puzzle[at++];
        for (size_t i = 0; i < z->height; i++) {
            z->lines[line++] = puzzle + at;
            for (size_t b = 0; direction == 1 && b < puzzle[at]; b++)
                mask |= power(2, puzzle[at + 2 + 2 * b]);
            at += 1 + 2 * puzzle[at];
        }
    }
    z->masks = puzzle + at + 1;
    z->colors = bits_of(mask == 1 ? 3 : mask, z->palette);
}

static void link_clauses(struct small *z, const size_t *begins, size_t clauses) {
    memset(z->head, 0, sizeof z->head);
    while (clauses-- > 0) {
        size_t at = begins[clauses], last = 0;
        for (int32_t i = 1; i <= z->words[at]; i++)
            last = variable_of(z->words[at + i]) > last ? variable_of(z->words[at + i]) : last;
        expect(last != 0 && last < FEW, "an empty clause or a wrong variable", z->puzzle, z->n);
        z->next[at] = z->head[last];
        z->head[last] = at;
    }
}

/* The clauses, in all rooms or in some, and their numbers. */
static void check_words(struct small *z, int all) {
    static size_t begins[FEW];
    uint64_t numbers[NUMBERS];
    size_t need, clauses = 0;
    expect(haafgrim_clauses(z->puzzle, z->n, z->words, FEW, &need) == 0, "not accepted", z->puzzle, z->n);
    (all ? check_all : check_some)(puzzle_call(CLAUSES, z->puzzle, z->n), (struct answer){0, 0, need, z->words});
    walk(z->words, need, numbers, begins);
    for (size_t section = 1; section <= SECTIONS; section++)
        clauses += numbers[section];
    expect(numbers[SECTIONS + 2] == need && clauses < need, "not ten sections", z->puzzle, z->n);
    check_all(puzzle_call(COUNTS, z->puzzle, z->n), (struct answer){0, 0, NUMBERS, numbers});
    z->variables = numbers[0];
    link_clauses(z, begins, clauses);
}

/* Whether the clauses with this last variable are true. */
static int all_true(const struct small *z, size_t v) {
    for (size_t at = z->head[v]; at != 0; at = z->next[at]) {
        int some = 0;
        for (int32_t i = 1; i <= z->words[at]; i++)
            some |= z->truth[variable_of(z->words[at + i])] == (z->words[at + i] > 0);
        if (!some)
            return 0;
    }
    return 1;
}

/* The number, as in small_line, of the picture that the cell variables show. */
static uint32_t picture_shown(const struct small *z) {
    uint32_t k = z->colors - 1, picture = 0;
    for (size_t cell = z->width * z->height, v = z->variables; cell-- > 0; v -= k) {
        uint32_t color = 0;
        for (uint32_t i = 0; i < k; i++)
            if (z->truth[v - i]) {
                expect(color == 0, "two colours in a cell", z->puzzle, z->n);
                color = k - i;
            }
        picture = picture * z->colors + color;
    }
    return picture;
}

/* Counts, for each picture, the assignments that show it and make every clause true; the variables below v have theirs. */
static void assign(struct small *z, size_t v) {
    if (v > z->variables) {
        z->found[picture_shown(z)]++;
        return;
    }
    for (uint8_t truth = 0; truth < 2; truth++) {
        z->truth[v] = truth;
        if (all_true(z, v))
            assign(z, v + 1);
    }
}

/* A solved cell has its colour; any other is blank or has a colour of its mask. */
static int obeys(uint32_t mask, uint8_t color) {
    int solved = (mask & (mask - 1)) == 0, has_color = mask >> color & 1;
    return solved ? has_color : color == 0 || has_color;
}

/* Whether each column and row reads as its clue, and each cell obeys its mask. */
static int solves(const struct small *z, const uint8_t *cells) {
    for (size_t i = 0; i < z->width * z->height; i++)
        if (!obeys(z->masks[i], cells[i]))
            return 0;
    for (size_t l = 0; l < z->width + z->height; l++) {
        size_t first = l < z->width ? l : (l - z->width) * z->width, step = l < z->width ? z->width : 1;
        size_t length = l < z->width ? z->height : z->width, place;
        uint8_t line[SMALL];
        uint32_t runs[2 * SMALL];
        for (size_t i = 0; i < length; i++)
            line[i] = cells[first + i * step];
        haafgrim_read_line(line, length, runs, 2 * SMALL, &place);
        if (place != 2 * z->lines[l][0] || memcmp(runs, z->lines[l] + 1, place * sizeof *runs) != 0)
            return 0;
    }
    return 1;
}

/* The clauses have one assignment for each picture that solves the puzzle, and none for any other. Answers how many pictures
 * do. */
static size_t check_small(const uint32_t *puzzle, size_t n, int all) {
    static struct small z;
    size_t solutions = 0;
    open_puzzle(&z, puzzle, n);
    check_words(&z, all);
    memset(z.found, 0, power(z.colors, z.width * z.height) * sizeof *z.found);
    assign(&z, 1);
    for (uint32_t picture = 0; picture < power(z.colors, z.width * z.height); picture++) {
        uint8_t cells[SMALL];
        small_line(cells, z.width * z.height, z.colors, picture);
        for (size_t i = 0; i < z.width * z.height; i++)
            cells[i] = z.palette[cells[i]];
        size_t right = (size_t)solves(&z, cells);
        expect(z.found[picture] == right, "clauses that let too many or too few pictures through", puzzle, n);
        solutions += right;
    }
    return solutions;
}

/* The puzzles of all grids of these sizes over so many colours, each solved by its grid at least. */
static void boards_of(size_t width, size_t height, uint32_t colors) {
    uint32_t words[ROOM];
    uint8_t cells[SMALL];
    for (uint32_t code = 0; code < power(colors, width * height); code++) {
        size_t n;
        small_line(cells, width * height, colors, code);
        haafgrim_read_grid(width, height, cells, width * height, words, ROOM, &n);
        expect(check_small(words, n, width * height <= 4) > 0, "no picture", words, n);
    }
}

/* Two colours on up to 6 cells, one on up to 10. */
static void small_boards(void) {
    for (size_t width = 1; width <= SMALL; width++)
        for (size_t height = 1; height <= SMALL / width; height++)
            boards_of(width, height, width * height <= 6 ? 3 : 2);
}

/* Most let the cell's own colour through: solved in it, unsolved with it. The others are solved in any of these colours or any
 * unsolved mask. */
static uint32_t random_mask(uint8_t own, const uint8_t *palette, uint32_t colors) {
    uint32_t kind = random_word() % 16, mask = random_word() & random_word() & (kind % 2 == 0 ? random_word() : UINT32_MAX);
    if (kind < 4)
        return power(2, kind == 0 ? palette[random_word() % colors] : own);
    mask |= kind == 4 ? 0 : power(2, own);
    return (mask & (mask - 1)) == 0 ? UINT32_MAX : mask;
}

/* The puzzle of a grid, whose columns' clues may come from another grid in its colours, with masks at random. */
static size_t random_puzzle(size_t width, size_t height, const uint8_t *cells, const uint8_t *other, uint32_t *words) {
    static uint32_t rest[MOST];
    uint8_t palette[32];
    size_t n, at, from, area = width * height;
    uint32_t colors = bits_of(mask_naively(cells, area), palette);
    haafgrim_read_grid(width, height, other, area, words, MOST, &n);
    haafgrim_read_grid(width, height, cells, area, rest, MOST, &n);
    at = section_length(words);
    from = section_length(rest);
    memcpy(words + at, rest + from, (n - from) * sizeof *words);
    n = at + n - from;
    for (size_t i = 0; i < area; i++)
        words[n - area + i] = random_mask(cells[i], palette, colors);
    return n;
}

/* Colours with holes between them. In a third of the rounds the columns have another grid's clues, most often without a
 * picture. */
static void random_boards(void) {
    static const struct { uint32_t colors; uint8_t palette[4]; } kinds[] = {
        {2, {0, 1}}, {2, {0, 31}}, {3, {0, 3, 17}}, {3, {0, 30, 31}}, {4, {0, 3, 17, 31}}};
    static const size_t sizes[][2] = {{3, 3}, {2, 3}, {4, 2}, {2, 4}, {5, 2}, {2, 5}, {6, 1}, {1, 6}, {3, 2}, {2, 2}};
    static uint32_t words[MOST];
    size_t solutions = 0;
    for (size_t round = 0; round < 3000; round++) {
        size_t kind = random_word() % COUNT(kinds), size = random_word() % COUNT(sizes);
        size_t width = sizes[size][0], height = sizes[size][1], area = width * height;
        uint32_t colors = kinds[kind].colors, strange = random_word() % 3 == 0;
        uint8_t cells[SMALL], other[SMALL];
        if (power(colors, area) > PICTURES)
            continue;
        for (size_t i = 0; i < area; i++)
            other[i] = cells[i] = kinds[kind].palette[random_word() % colors];
        for (size_t i = 0; strange && i < area; i++)
            other[i] = cells[random_word() % area];
        solutions += check_small(words, random_puzzle(width, height, cells, other, words), 0);
    }
    expect(solutions > 1000, "hardly any picture", NULL, 0);
}

/* ---- Clauses of large boards ---- */

static int untouched(const int32_t *words, size_t from, size_t to) {
    while (from < to && words[from] == 0x5A5A5A5A)
        from++;
    return from == to;
}

/* In memory of their own: nothing is written where a word is missing, nothing behind what is needed; and counts agrees. */
static void check_large(const uint32_t *puzzle, size_t n) {
    uint64_t said[NUMBERS], numbers[NUMBERS];
    size_t place, need;
    int32_t *words;
    expect(haafgrim_counts(puzzle, n, said, NUMBERS, &place) == 0 && place == NUMBERS, "counts refused", puzzle, n);
    need = said[SECTIONS + 2];
    expect(need > SECTIONS && need < 100000000, "a wrong number of words", puzzle, n);
    words = malloc((need + PAD) * sizeof *words);
    expect(words != NULL, "no memory", puzzle, n);
    memset(words, 0x5A, (need + PAD) * sizeof *words);
    expect(haafgrim_clauses(puzzle, n, words, need - 1, &place) == 12 && place == need, "one word less", puzzle, n);
    expect(untouched(words, 0, need + PAD), "one word less, and something written", puzzle, n);
    expect(haafgrim_clauses(puzzle, n, words, need + PAD, &place) == 0 && place == need, "room enough", puzzle, n);
    expect(untouched(words, need, need + PAD), "written behind the clauses", puzzle, n);
    walk(words, need, numbers, NULL);
    expect(memcmp(said, numbers, sizeof said) == 0, "counts that are not those of the clauses", puzzle, n);
    free(words);
}

static void large_boards(void) {
    static const uint32_t colors[] = {1, 4, 31};
    static uint32_t words[MOST];
    uint8_t cells[CELLS];
    for (size_t round = 0; round < 60; round++) {
        size_t width = round < 3 ? 64 : 1 + random_word() % 64, height = round < 3 ? 64 : 1 + random_word() % 64;
        random_cells(cells, width, height, colors[round % 3]);
        check_large(words, random_puzzle(width, height, cells, cells, words));
    }
}

/* A clue of single cells, whose colours go round. */
static size_t put_clue(uint32_t *words, uint32_t blocks, uint32_t colors) {
    words[0] = blocks;
    fill(words + 1, blocks, 1, colors);
    return 1 + 2 * blocks;
}

/* 64 by 64 with every mask of all bits. Each line has so many blocks, in two colours by turns, but the first row has a number
 * of its own and 31 colours. No blocks at all; 31 colours in one row; the most variables that a puzzle has, 262,144. The
 * numbers come from document 01's formulas. */
static void largest_boards(void) {
    static const struct { uint32_t blocks, first; uint64_t numbers[NUMBERS]; } rows[] = {
        {0, 0, {4096, 0, 0, 0, 0, 0, 0, 8192, 0, 0, 0, 8192, 16394}},
        {0, 31, {128030, 0, 31, 0, 17391, 0, 143995, 253952, 1054, 1904640, 0, 4390220, 6711293}},
        {32, 32, {262144, 2048, 2048, 1081344, 1081344, 9252352, 9246915, 253952, 135168, 1904640, 0, 45927814, 68887635}},
    };
    static uint32_t words[MOST];
    for (size_t i = 0; i < COUNT(rows); i++) {
        size_t n = 0;
        for (size_t line = 0; line < 128; line++) {
            if (line % 64 == 0)
                words[n++] = 64;
            n += put_clue(words + n, line == 64 ? rows[i].first : rows[i].blocks, line == 64 ? 31 : 2);
        }
        words[n++] = CELLS;
        memset(words + n, 0xFF, CELLS * sizeof *words);
        n += CELLS;
        check_all(puzzle_call(COUNTS, words, n), (struct answer){0, 0, NUMBERS, rows[i].numbers});
        check_lent(puzzle_call(CLAUSES, words, n), (struct answer){0, 0, rows[i].numbers[SECTIONS + 2], NULL}, ROOM);
        if (rows[i].blocks == 0)
            check_large(words, n);
    }
}

static void group(const char *name, void (*tests)(void)) {
    unsigned long before = checks;
    tests();
    printf("%s: %lu checks\n", name, checks - before);
}

int main(void) {
    group("rows P1, P3, P4, P5 and limits", by_hand);
    group("lines of 1 to 6 cells", small_lines);
    group("longer lines", long_lines);
    group("refused lines", refused_lines);
    group("clues on 1 to 6 cells", small_clues);
    group("clues of many blocks", many_blocks);
    group("refused clues", refused_rows);
    group("refused lengths, counts and long clues", refused_long);
    group("masks", masks);
    group("joined words", joins);
    group("grids by hand", grids_by_hand);
    group("grids up to 3 by 3", small_grids);
    group("plain and striped grids", plain_grids);
    group("random grids", random_grids);
    group("transposed bytes", turned_grids);
    group("refused widths and heights", refused_grid_sizes);
    group("refused grid lengths", refused_grid_lengths);
    group("refused cells", refused_grid_cells);
    group("clauses by hand", clauses_by_hand);
    group("refused puzzles", refused_puzzles);
    group("clauses of boards up to 10 cells", small_boards);
    group("clauses of random boards, masks and colours", random_boards);
    group("clauses of large boards", large_boards);
    group("clauses of the largest boards", largest_boards);
    printf("entries: %lu checks, 0 wrong\n", checks);
    return 0;
}
