/* Gives every entry good and damaged inputs between guard pages. Each input is tried in buffers that end at a guard page and in buffers that begin at one, with no room, the
 * room needed, one less and any other: nothing outside is read or written, inputs stay, a refusal leaves the buffer as it was, and the answer hangs on nothing but the input.
 * Before that, libraries broken in several ways are tried, and each must be caught. fuzz SEED COUNT FIRST: a case hangs on the seed and its number only, so
 * that FIRST repeats one alone. Ends at the first wrong answer or fault, with status 1. */
#define _GNU_SOURCE
#include "haafgrim.h"
#include <pthread.h>
#include <sched.h>
#include <signal.h>
#include <stdatomic.h>
#include <stdio.h>
#include <stdlib.h>
#include <string.h>
#include <sys/mman.h>
#include <sys/wait.h>
#include <unistd.h>

/* Bytes of a buffer, of its guards and of the canaries; a run of ENOUGH inputs must reach every number; SHARED cases are run by two threads at once. */
enum { MOST = 1 << 26, GUARD = 1 << 24, SIDE = 64, FILLS = 1 << 16, ENOUGH = 1000000, SHARED = 26000 };
enum { CELLS = 4096, PUZZLE = 20611, VARIABLES = 262144, PROBE = 128, LONGEST = 1048576, NUMBERS = 23 };

enum entry { TWO_POWERS, FROM_TWO_POWERS, READ_LINE, STARTS, COLOR_RANGES, READ_GRID, TRANSPOSE, CLAUSES, COUNTS, CHECK_MODEL, BLOCKING, PROBES, DIMACS, ENTRIES };

#define N(number) (1u << (number))
#define CLUE (N(1) | N(2) | N(3) | N(4) | N(5) | N(6) | N(12))
#define WORDS (CLUE | N(7) | N(8) | N(9) | N(10) | N(11))
#define MODEL (WORDS | N(13) | N(14) | N(15))

/* The number arguments, the bytes of an element of each input and of the output, the elements that are always enough, and the refusals that the header names, but 16,
 * which never comes. */
static const struct { const char *name; uint32_t sizes; size_t in[2], out, enough; uint32_t refusals; } entries[ENTRIES] = {
    [TWO_POWERS] = {"two_powers", 1, {0, 0}, 4, 32, N(12)},
    [FROM_TWO_POWERS] = {"from_two_powers", 0, {4, 0}, 0, 0, 0},
    [READ_LINE] = {"read_line", 0, {1, 0}, 4, 128, N(2) | N(18) | N(12)},
    [STARTS] = {"starts", 1, {4, 0}, 4, 66, CLUE},
    [COLOR_RANGES] = {"color_ranges", 1, {4, 0}, 4, 62, CLUE},
    [READ_GRID] = {"read_grid", 2, {1, 0}, 4, PUZZLE, N(2) | N(7) | N(18) | N(12)},
    [TRANSPOSE] = {"transpose", 2, {1, 0}, 1, CELLS, N(2) | N(7) | N(12)},
    [CLAUSES] = {"clauses", 0, {4, 0}, 4, SIZE_MAX, WORDS},
    [COUNTS] = {"counts", 0, {4, 0}, 8, 13, WORDS},
    [CHECK_MODEL] = {"check_model", 0, {4, 1}, 1, CELLS, MODEL},
    [BLOCKING] = {"blocking", 0, {4, 1}, 4, CELLS + 1, MODEL},
    [PROBES] = {"probes", 0, {4, 4}, 4, SIZE_MAX, WORDS | N(17) | N(18) | N(19) | N(20)},
    [DIMACS] = {"dimacs", 2, {4, 0}, 1, SIZE_MAX, N(21) | N(22) | N(12)},
};

/* Elements of `width` bytes, with MOST bytes behind `data`. */
struct slice { uint8_t *data; size_t len, width; };
struct input { size_t sizes[2]; struct slice in[2]; };

/* A picture, and the words of its puzzle. */
struct board {
    size_t width, height, len, variables;
    uint32_t colors, palette[32], words[PUZZLE];
    uint8_t grid[CELLS];
};

/* Memory between guards as it is lent, and the same memory where it may be written. */
struct pen { uint8_t *lent, *write; };

struct answer { uint32_t number; size_t place; };
struct tally { unsigned long inputs, damaged, calls, accepted, longest, refused[NUMBERS]; };

/* All that a thread needs. `written` are the elements of the first acceptance, behind one word of room. */
struct worker {
    unsigned long number, first, count;
    uint64_t state, *digests;
    enum entry entry;
    struct input own, other;
    struct pen in[2], out, place;
    const void *lent[2];
    uint8_t *written, *stack;
    int accepted;
    struct board board;
    uint8_t model[VARIABLES];
    uint32_t probe[PROBE];
    struct tally tallies[ENTRIES];
};

static unsigned long seed;
static int broken = -1;
static uint8_t *fills;
static struct worker nobody;
static _Thread_local struct worker *current = &nobody;

static void fail(const char *what) {
    printf("wrong: %s: %s, seed %lu, case %lu\n", what, entries[current->entry].name, seed, current->number);
    fflush(stdout);
    _exit(1);
}

static void expect(int right, const char *what) {
    if (!right)
        fail(what);
}

static void on_fault(int signal) {
    fail(signal == SIGSEGV || signal == SIGBUS ? "only lent memory is touched, and inputs are only read" : "the call comes back");
}

/* ---- random numbers, from the seed and the number of the case */

static uint64_t mix(uint64_t x) {
    x = (x ^ x >> 30) * 0xBF58476D1CE4E5B9u;
    x = (x ^ x >> 27) * 0x94D049BB133111EBu;
    return x ^ x >> 31;
}

static uint32_t random_word(struct worker *w) {
    w->state += 0x9E3779B97F4A7C15u;
    return (uint32_t)(mix(w->state) >> 32);
}

static uint32_t below(struct worker *w, uint32_t n) {
    return random_word(w) % n;
}

/* ---- memory */

static uint8_t *map(uint8_t *at, size_t bytes, int access, int flags, int file) {
    uint8_t *memory = mmap(at, bytes, access, flags | MAP_NORESERVE, file, 0);
    expect(memory != MAP_FAILED, "there is memory for the test");
    return memory;
}

static uint8_t *room(size_t bytes) {
    return map(NULL, bytes, PROT_READ | PROT_WRITE, MAP_PRIVATE | MAP_ANONYMOUS, -1);
}

/* An input is lent through a second mapping that can only be read. */
static struct pen make_pen(int access) {
    uint8_t *lent = map(NULL, MOST + 2ul * GUARD, PROT_NONE, MAP_PRIVATE | MAP_ANONYMOUS, -1) + GUARD;
    int file = memfd_create("pen", 0);
    expect(file >= 0 && ftruncate(file, MOST) == 0, "there is memory for the test");
    map(lent, MOST, access, MAP_SHARED | MAP_FIXED, file);
    uint8_t *write = map(NULL, MOST, PROT_READ | PROT_WRITE, MAP_SHARED, file);
    close(file);
    return (struct pen){lent, write};
}

/* A buffer filled with random bytes, and SIDE more of them as canaries on the side that has no guard. */
struct loan { uint8_t *at; const uint8_t *fill; size_t bytes; int right; };

static struct loan lend(struct worker *w, const struct pen *pen, size_t bytes, int right) {
    const uint8_t *fill = fills + below(w, FILLS);
    uint8_t *at = right ? pen->lent + MOST - bytes : pen->lent;
    memcpy(right ? at - SIDE : at, fill, bytes + SIDE);
    return (struct loan){at, right ? fill + SIDE : fill, bytes, right};
}

/* The canaries, and all but the first `used` bytes. */
static int as_lent(const struct loan *l, size_t used) {
    ptrdiff_t side = l->right ? -SIDE : (ptrdiff_t)l->bytes;
    return memcmp(l->at + side, l->fill + side, SIDE) == 0 && memcmp(l->at + used, l->fill + used, l->bytes - used) == 0;
}

/* No bytes are the guard itself, or else NULL. */
static void *lent_at(uint8_t *at, size_t bytes, int right) {
    return bytes == 0 && !right ? NULL : at;
}

static void show_inputs(struct worker *w, int right) {
    for (int k = 0; k < 2; k++) {
        const struct slice *s = &w->own.in[k];
        size_t bytes = s->len * s->width, at = right ? MOST - bytes : 0;
        memcpy(w->in[k].write + at, s->data, bytes);
        w->lent[k] = lent_at(w->in[k].lent + at, bytes, right);
    }
}

/* ---- calls */

static uint32_t joined(const uint32_t *words, size_t n) {
    uint32_t mask = 0;
    for (size_t i = 0; i < n; i++)
        mask |= words[i];
    return mask;
}

static uint32_t perform(enum entry entry, const size_t *sizes, const void *a, size_t a_len, const void *b, size_t b_len, void *out, size_t out_len, size_t *place) {
    switch (entry) {
    case TWO_POWERS: return haafgrim_two_powers((uint32_t)sizes[0], out, out_len, place);
    case FROM_TWO_POWERS:
        expect(haafgrim_from_two_powers(a, a_len) == joined(a, a_len), "from_two_powers joins the words");
        *place = 0;
        return 0;
    case READ_LINE: return haafgrim_read_line(a, a_len, out, out_len, place);
    case STARTS: return haafgrim_starts(sizes[0], a, a_len, out, out_len, place);
    case COLOR_RANGES: return haafgrim_color_ranges(sizes[0], a, a_len, out, out_len, place);
    case READ_GRID: return haafgrim_read_grid(sizes[0], sizes[1], a, a_len, out, out_len, place);
    case TRANSPOSE: return haafgrim_transpose(sizes[0], sizes[1], a, a_len, out, out_len, place);
    case CLAUSES: return haafgrim_clauses(a, a_len, out, out_len, place);
    case COUNTS: return haafgrim_counts(a, a_len, out, out_len, place);
    case CHECK_MODEL: return haafgrim_check_model(a, a_len, b, b_len, out, out_len, place);
    case BLOCKING: return haafgrim_blocking(a, a_len, b, b_len, out, out_len, place);
    case PROBES: return haafgrim_probes(a, a_len, b, b_len, out, out_len, place);
    default: return haafgrim_dimacs(sizes[0], sizes[1], a, a_len, out, out_len, place);
    }
}

enum { BROKEN = 20 };

/* What a broken library might do. The first eight write a byte behind or before the buffer or the place, at a guard or at canaries; the last keeps state. */
static uint32_t sabotage(struct worker *w, uint32_t number, const struct loan *out, const struct loan *place) {
    static atomic_int busy;
    const volatile uint8_t *in = w->lent[0];
    const struct slice *s = &w->own.in[0];
    const struct loan *l = broken & 4 ? place : out;
    size_t *at = (size_t *)place->at, used = number == 0 ? *at * entries[w->entry].out : 0;
    switch (broken) {
    default:
        if (l->right == (broken & 1))
            *(broken & 2 ? l->at + l->bytes : l->at - 1) ^= 1;
        break;
    case 8: return in != NULL && out->right ? number + 0u * in[s->len * s->width] : number;
    case 9: return in != NULL && !out->right ? number + 0u * in[-1] : number;
    case 10:
        if (in != NULL && s->len > 0)
            *(uint8_t *)w->lent[0] = 1;
        break;
    case 11:
        if (number != 0 && out->bytes > 0)
            out->at[out->bytes - 1] ^= 1;
        break;
    case 12:
        if (number == 0 && used < out->bytes)
            out->at[used] ^= 1;
        break;
    case 13: memcpy(place->at, place->fill, sizeof *at); break;
    case 14: memcpy(out->at + used / 2, out->fill + used / 2, used - used / 2); break;
    case 15: return number == 15 ? 16 : number;
    case 16: return number != 0 && out->bytes == 0 ? *at = 1, 12 : number;
    case 17: *at += number == 12 && out->bytes > 0; break;
    case 18: return number == 0 && out->right ? 12 : number;
    case 19:
        busy++;
        sched_yield();
        *at += busy-- > 1;
        break;
    }
    return number;
}

static struct answer call(struct worker *w, size_t out_len, int right) {
    size_t width = entries[w->entry].out, at;
    const struct slice *in = w->own.in;
    struct loan out = lend(w, &w->out, out_len * width, right), place = lend(w, &w->place, sizeof at, right);
    uint32_t number = perform(w->entry, w->own.sizes, w->lent[0], in[0].len, w->lent[1], in[1].len, lent_at(out.at, out.bytes, right), out_len, (size_t *)place.at);
    if (broken >= 0)
        number = sabotage(w, number, &out, &place);
    memcpy(&at, place.at, sizeof at);
    expect(as_lent(&place, sizeof at), "nothing beside the place is changed");
    expect(memcmp(place.at, place.fill, sizeof at) != 0, "the place is set");
    expect(number == 0 || (number < NUMBERS && entries[w->entry].refusals >> number & 1), "the number is one of the entry's");
    expect(number != 0 || at <= out_len, "no more is written than is lent");
    expect(as_lent(&out, number == 0 ? at * width : 0), number == 0 ? "nothing beside the answer is changed" : "a refusal changes nothing");
    if (number == 0 && !w->accepted)
        memcpy(w->written, out.at, at * width);
    expect(number != 0 || memcmp(w->written, out.at, at * width) == 0, "the same elements are written each time");
    w->accepted |= number == 0;
    w->tallies[w->entry].calls++;
    return (struct answer){number, at};
}

/* ---- good inputs */

/* The most of a side and of the colours. Most boards are small, so that a run is quick; the entries up to transpose cost little on large ones. */
static void random_shape(struct worker *w, struct board *b) {
    static const struct { uint32_t most[3], until[2]; } shapes[] = {
        {{64, 64, 31}, {2, 20}}, {{64, 3, 31}, {17, 170}}, {{3, 64, 31}, {32, 320}}, {{14, 14, 6}, {52, 420}}, {{6, 5, 4}, {1000, 1000}}};
    uint32_t roll = below(w, 1000), chosen[3];
    size_t shape = 0;
    while (roll >= shapes[shape].until[w->entry <= TRANSPOSE])
        shape++;
    for (size_t i = 0; i < 3; i++)
        chosen[i] = below(w, 4) == 0 ? shapes[shape].most[i] : 1 + below(w, shapes[shape].most[i]);
    b->width = chosen[0];
    b->height = chosen[1];
    b->colors = chosen[2];
}

/* Some have the most runs that there can be: with two colours or more, no neighbours are of one colour. */
static void random_picture(struct worker *w, struct board *b) {
    uint32_t stripes = below(w, 8) == 0, blank = stripes ? 0 : below(w, 100), again = stripes ? 0 : 33;
    for (size_t i = 0; i < b->width * b->height; i++) {
        size_t next = stripes ? i % b->width + i / b->width : random_word(w);
        b->grid[i] = (uint8_t)(below(w, 100) < blank ? 0 : i > 0 && below(w, 100) < again ? b->grid[i - 1] : 1 + next % b->colors);
    }
}

/* Half of the puzzles get masks that the picture obeys. */
static void read_board(struct worker *w, struct board *b) {
    uint64_t counts[13];
    size_t cells = b->width * b->height, place;
    expect(haafgrim_read_grid(b->width, b->height, b->grid, cells, b->words, PUZZLE, &b->len) == 0, "a picture is read");
    uint32_t whole = b->words[b->len - 1], *masks = b->words + b->len - cells, masked = below(w, 2);
    b->colors = 0;
    for (uint32_t color = 1; color < 32; color++)
        if (whole >> color & 1)
            b->palette[b->colors++] = color;
    for (size_t i = 0; masked && i < cells; i++)
        masks[i] = below(w, 3) == 0 ? N(b->grid[i]) : below(w, 2) == 0 ? N(b->grid[i]) | N(below(w, 32)) : whole;
    expect(haafgrim_counts(b->words, b->len, counts, 13, &place) == 0, "a picture's puzzle is accepted");
    b->variables = counts[0];
}

/* The positions of a line's blocks in the picture; answers how many variables they have. */
static size_t model_line(const uint8_t *cells, size_t step, size_t n, const uint32_t *clue, uint8_t *model) {
    uint32_t starts[66];
    size_t place, block = 0;
    expect(haafgrim_starts(n, clue + 1, 2 * clue[0], starts, 66, &place) == 0, "a picture's clue is accepted");
    memset(model, 0, clue[0] * starts[0]);
    for (size_t i = 0; i < n; i++)
        if (cells[i * step] != 0 && (i == 0 || cells[(i - 1) * step] != cells[i * step])) {
            model[block * starts[0] + i - starts[2 + block]] = 1;
            block++;
        }
    return clue[0] * starts[0];
}

static void model_of(const struct board *b, uint8_t *model) {
    const uint32_t *clue = b->words + 1;
    for (size_t x = 0; x < b->width; x++, clue += 1 + 2 * clue[0])
        model += model_line(b->grid + x, b->width, b->height, clue, model);
    clue++;
    for (size_t y = 0; y < b->height; y++, clue += 1 + 2 * clue[0])
        model += model_line(b->grid + y * b->width, 1, b->width, clue, model);
    for (size_t i = 0; i < b->width * b->height; i++)
        for (uint32_t r = 0; r < b->colors; r++)
            *model++ = b->grid[i] == b->palette[r];
}

static size_t random_claim(struct worker *w, const struct board *b, uint32_t *claim) {
    claim[0] = below(w, (uint32_t)b->width);
    claim[1] = below(w, (uint32_t)b->height);
    claim[2] = below(w, 4) == 0 ? 0 : b->palette[below(w, b->colors)];
    return 3;
}

static size_t random_probes(struct worker *w, const struct board *b, uint32_t *probe) {
    size_t n = 1;
    probe[0] = below(w, 5);
    for (uint32_t i = 0; i < probe[0]; i++) {
        n += random_claim(w, b, probe + n);
        uint32_t impacts = probe[n++] = below(w, 5);
        for (; impacts > 0; impacts--)
            n += random_claim(w, b, probe + n);
    }
    return n;
}

static void give(struct slice *s, const void *data, size_t len) {
    memcpy(s->data, data, len * s->width);
    s->len = len;
}

/* Clause words of the puzzle, of probes and of a blocking clause, or of some of these. */
static void build_clauses(struct worker *w, const struct board *b, struct input *x) {
    struct slice *s = &x->in[0];
    int32_t *words = (int32_t *)s->data;
    size_t most = MOST / sizeof *words, n;
    uint32_t parts = 1 + below(w, 7);
    x->sizes[0] = b->variables;
    x->sizes[1] = s->len = 0;
    if (parts & 1 && haafgrim_clauses(b->words, b->len, words, most, &n) == 0) {
        s->len = n;
        x->sizes[1] = 10;
    }
    if (parts & 2 && haafgrim_probes(b->words, b->len, w->probe, random_probes(w, b, w->probe), words + s->len, most - s->len, &n) == 0) {
        s->len += n;
        x->sizes[1]++;
    }
    model_of(b, w->model);
    if (parts & 4 && s->len < most && haafgrim_blocking(b->words, b->len, w->model, b->variables, words + s->len + 1, most - s->len - 1, &n) == 0) {
        words[s->len] = 1;
        s->len += n + 1;
        x->sizes[1]++;
    }
}

static void build(struct worker *w, struct input *x) {
    struct board *b = &w->board;
    uint32_t words[128];
    size_t n = below(w, 40), row;
    random_shape(w, b);
    random_picture(w, b);
    row = below(w, (uint32_t)b->height) * b->width;
    x->sizes[0] = b->width;
    x->sizes[1] = b->height;
    for (int k = 0; k < 2; k++)
        x->in[k] = (struct slice){x->in[k].data, 0, entries[w->entry].in[k]};
    if (w->entry >= CLAUSES) {
        read_board(w, b);
        give(&x->in[0], b->words, b->len);
    }
    switch (w->entry) {
    case TWO_POWERS: x->sizes[0] = random_word(w) & random_word(w); break;
    case FROM_TWO_POWERS:
        for (size_t i = 0; i < n; i++)
            words[i] = N(below(w, 32));
        give(&x->in[0], words, n);
        break;
    case READ_LINE: give(&x->in[0], b->grid + row, b->width); break;
    case STARTS: case COLOR_RANGES:
        expect(haafgrim_read_line(b->grid + row, b->width, words, 128, &n) == 0, "a picture's row is read");
        give(&x->in[0], words, n);
        break;
    case READ_GRID: case TRANSPOSE: give(&x->in[0], b->grid, b->width * b->height); break;
    case CHECK_MODEL: case BLOCKING:
        model_of(b, x->in[1].data);
        x->in[1].len = b->variables;
        break;
    case PROBES: x->in[1].len = random_probes(w, b, (uint32_t *)x->in[1].data); break;
    case DIMACS: build_clauses(w, b, x); break;
    default: break;
    }
}

/* ---- damage */

static size_t odd_size(struct worker *w, size_t own) {
    const size_t odd[] = {0, 1, own + 1, own - 1, 2 * own, 2, 16, 17, 63, 64, 65, 66, 257, 1000000, 1000001, 1ul << 31, UINT32_MAX, 1ul << 32, own + (1ul << 32), 1ul << 63,
                          own + (1ul << 63), SIZE_MAX / 2, SIZE_MAX - 63, SIZE_MAX, below(w, 66), random_word(w)};
    return odd[below(w, sizeof odd / sizeof *odd)];
}

static uint32_t odd_word(struct worker *w, uint32_t own) {
    const uint32_t odd[] = {0, 1, own + 1, own - 1, 2, 31, 32, 33, 64, 65, 127, 128, N(31), N(31) - 1, UINT32_MAX, 0u - own, N(below(w, 32)), below(w, 32), below(w, 66), random_word(w)};
    return odd[below(w, sizeof odd / sizeof *odd)];
}

static uint32_t get(const struct slice *s, size_t i) {
    uint32_t word;
    return s->width == 1 ? s->data[i] : (memcpy(&word, s->data + 4 * i, 4), word);
}

static void put(struct slice *s, size_t i, uint32_t word) {
    if (s->width == 1)
        s->data[i] = (uint8_t)word;
    else
        memcpy(s->data + 4 * i, &word, 4);
}

/* Puts `n` elements, which are not of `s`, where `gone` were, if there is room for them. */
static void replace(struct slice *s, size_t at, size_t gone, const void *with, size_t n) {
    if ((s->len - gone + n) * s->width > MOST)
        return;
    memmove(s->data + (at + n) * s->width, s->data + (at + gone) * s->width, (s->len - at - gone) * s->width);
    memcpy(s->data + at * s->width, with, n * s->width);
    s->len = s->len - gone + n;
}

static void damage(struct worker *w, struct slice *s, const struct slice *other) {
    uint32_t some[8], n = (uint32_t)s->len;
    size_t at = below(w, n + 1), more = 1 + below(w, 8), left = s->len - at, from = below(w, (uint32_t)other->len + 1);
    for (size_t i = 0; i < 8; i++)
        some[i] = at < n ? odd_word(w, get(s, at)) : odd_word(w, 0);
    switch (below(w, 16)) {
    default:
        if (at < n)
            put(s, at, some[0]);
        break;
    case 0: case 8:
        if (at < n)
            put(s, at, get(s, at) ^ N(below(w, 2) * below(w, 8 * (uint32_t)s->width)));
        break;
    case 1:
        if (at < n) {
            size_t to = below(w, n);
            uint32_t word = get(s, at);
            put(s, at, get(s, to));
            put(s, to, word);
        }
        break;
    case 2: replace(s, at, more < left ? more : left, "", 0); break;
    case 3: replace(s, at, 0, some, more); break;
    case 4:
        more = more < left ? more : left;
        memcpy(some, s->data + at * s->width, more * s->width);
        for (uint32_t times = 1 + below(w, 4) % 2 * below(w, 80); times > 0; times--)
            replace(s, at, 0, some, more);
        break;
    case 5: replace(s, at, left, "", 0); break;
    case 6: replace(s, at, left, other->data + from * s->width, other->len - from); break;
    case 7: give(s, fills + below(w, FILLS), below(w, 100)); break;
    }
}

/* Some of the number arguments and of the inputs. A probe list is made too long now and then. */
static void damage_parts(struct worker *w) {
    struct input *x = &w->own;
    uint32_t sizes = entries[w->entry].sizes, ins = (entries[w->entry].in[0] > 0) + (entries[w->entry].in[1] > 0);
    build(w, &w->other);
    do {
        uint32_t part = below(w, sizes + 2 * ins);
        if (part < sizes)
            x->sizes[part] = odd_size(w, x->sizes[part]);
        else
            damage(w, &x->in[(part - sizes) % ins], &w->other.in[(part - sizes) % ins]);
    } while (below(w, 3) == 0);
    if (w->entry == PROBES && below(w, 500) == 0) {
        size_t n = LONGEST + below(w, 3);
        memset(x->in[1].data + 4 * x->in[1].len, 0, 4 * (n - x->in[1].len));
        x->in[1].len = n;
    }
}

/* ---- cases */

static uint64_t hash(uint64_t start, const void *data, size_t bytes) {
    for (const uint8_t *at = data; bytes > 0; bytes--)
        start = (start ^ *at++) * 0x100000001B3u;
    return start;
}

static uint64_t hash_input(const struct input *x) {
    uint64_t h = hash(1, x->sizes, sizeof x->sizes);
    for (int k = 0; k < 2; k++)
        h = mix(hash(h, x->in[k].data, x->in[k].len * x->in[k].width) + x->in[k].len);
    return h;
}

/* The formula of so many sections is accepted with room: its text is never empty. */
static void accepted_text(size_t variables, size_t sections, const int32_t *words, size_t n) {
    size_t place;
    expect(haafgrim_dimacs(variables, sections, words, n, NULL, 0, &place) == 12, "dimacs accepts the clauses");
}

/* What other entries say of an accepted input and of the `n` elements that were written. */
static void consistent(struct worker *w, size_t n) {
    const struct input *x = &w->own;
    const void *a = x->in[0].data, *b = x->in[1].data;
    size_t a_len = x->in[0].len, place = 0;
    uint64_t counts[13];
    uint32_t *words = (uint32_t *)w->written;
    if (w->entry >= CLAUSES && w->entry != DIMACS)
        expect(haafgrim_counts(a, a_len, counts, 13, &place) == 0 && counts[0] <= VARIABLES, "counts accepts the puzzle, with 262,144 variables at most");
    switch (w->entry) {
    case TWO_POWERS: expect(haafgrim_from_two_powers(words, n) == (uint32_t)x->sizes[0], "the powers are those of the mask"); break;
    case READ_LINE: expect(haafgrim_starts(a_len, words, n, NULL, 0, &place) == 12 && place == 2 + n / 2, "starts accepts the runs"); break;
    case STARTS: expect(words[0] + words[1] == x->sizes[0] + 1, "positions and least space are one more than the length"); break;
    case COLOR_RANGES: expect(n == 62, "the ranges are 62 words"); break;
    case READ_GRID: expect(haafgrim_clauses(words, n, NULL, 0, &place) == 12, "clauses accepts the picture's puzzle"); break;
    case TRANSPOSE:
        expect(haafgrim_transpose(x->sizes[1], x->sizes[0], w->written, n, w->other.in[0].data, n, &place) == 0, "the transposed grid is accepted");
        expect(n == a_len && memcmp(w->other.in[0].data, a, n) == 0, "it gives the grid back");
        break;
    case CLAUSES:
        expect(counts[12] == n, "there are as many words as counts says");
        accepted_text(counts[0], 10, (int32_t *)words, n);
        break;
    case COUNTS: expect(haafgrim_clauses(a, a_len, NULL, 0, &place) == 12 && place == ((uint64_t *)w->written)[12], "clauses needs as many words"); break;
    case CHECK_MODEL:
        expect(haafgrim_blocking(a, a_len, b, x->in[1].len, NULL, 0, &place) == 12 && place <= n + 1, "blocking accepts the model");
        for (size_t i = 0; i < n; i++)
            place -= w->written[i] != 0;
        expect(place == 1, "blocking has a literal for each coloured cell");
        break;
    case BLOCKING:
        expect(words[0] == n - 1, "the first word is the number of the literals");
        words[-1] = 1;
        accepted_text(counts[0], 1, (int32_t *)words - 1, n + 1);
        break;
    case PROBES: accepted_text(counts[0], 1, (int32_t *)words, n); break;
    case DIMACS: expect(memcmp(w->written, "p cnf ", 6) == 0 && w->written[n - 1] == '\n', "the text has its beginning and its end"); break;
    default: break;
    }
}

static size_t any_room(struct worker *w, size_t need) {
    const size_t some[] = {0, 1, need + 1, need + below(w, 64), below(w, (uint32_t)need + 1), need + below(w, (uint32_t)need + 1)};
    return some[below(w, sizeof some / sizeof *some)];
}

/* With no room first, which tells the need; 12 comes last, so that another refusal is the same with any room. Answers a digest of the answers. */
static uint64_t try_input(struct worker *w, int damaged) {
    struct tally *t = &w->tallies[w->entry];
    w->accepted = 0;
    show_inputs(w, 1);
    struct answer first = call(w, 0, 1);
    int refused = first.number != 0 && first.number != 12;
    size_t need = refused ? below(w, 200) : first.place, width = entries[w->entry].out;
    expect(damaged || !refused, "a good input is accepted");
    expect(refused || ((first.number == 12) == (need > 0) && need <= entries[w->entry].enough), "12 is for a need, of no more than is always enough");
    for (int right = 1; right >= 0; right--) {
        const size_t rooms[] = {need, need - (need > 0), any_room(w, need)};
        show_inputs(w, right);
        for (size_t i = 0; i < 3; i++) {
            size_t out_len = rooms[i];
            if (out_len * width > MOST - SIDE)
                continue;
            struct answer want = refused ? first : (struct answer){out_len < need ? 12 : 0, need}, got = call(w, out_len, right);
            expect(got.number == want.number && got.place == want.place, "more room or less is a matter of 12 only");
        }
    }
    t->inputs++;
    t->damaged += (unsigned)damaged;
    t->accepted += (unsigned)w->accepted;
    t->longest = w->accepted && need > t->longest ? need : t->longest;
    t->refused[first.number]++;
    uint64_t digest = mix(first.number ^ (uint64_t)first.place << 8);
    if (!w->accepted)
        return digest;
    consistent(w, need);
    return hash(digest, w->written, need * width);
}

/* The digests of the first SHARED cases are kept, or else compared with those kept. */
static void *run(void *worker) {
    struct worker *w = current = worker;
    stack_t stack = {.ss_sp = w->stack, .ss_size = FILLS};
    sigaltstack(&stack, NULL);
    for (w->number = w->first; w->number - w->first < w->count; w->number++) {
        w->entry = (enum entry)(w->number % ENTRIES);
        w->state = mix(mix(seed) + w->number);
        build(w, &w->own);
        uint64_t whole = hash_input(&w->own);
        if (below(w, 4) != 0)
            damage_parts(w);
        uint64_t digest = try_input(w, whole != hash_input(&w->own)), *kept = w->number - w->first < SHARED ? &w->digests[w->number - w->first] : &digest;
        expect(*kept == 0 || *kept == digest, "the answer is the one given alone");
        if (*kept == 0)
            *kept = digest;
    }
    return NULL;
}

static struct worker *make_worker(unsigned long first, unsigned long count, uint64_t *digests) {
    struct worker *w = current = (struct worker *)room(sizeof *w);
    w->first = first;
    w->count = count;
    w->digests = digests;
    w->stack = room(FILLS);
    w->written = room(MOST + SIDE) + SIDE;
    w->out = make_pen(PROT_READ | PROT_WRITE);
    w->place = make_pen(PROT_READ | PROT_WRITE);
    for (int k = 0; k < 2; k++) {
        w->in[k] = make_pen(PROT_READ);
        w->own.in[k].data = room(MOST);
        w->other.in[k].data = room(MOST);
    }
    return w;
}

/* ---- runs */

/* Both run the same cases at the same time. */
static void run_twice_at_once(unsigned long first, unsigned long count, uint64_t *digests) {
    pthread_t threads[2];
    for (int i = 0; i < 2; i++)
        expect(pthread_create(&threads[i], NULL, run, make_worker(first, count, digests)) == 0, "a thread starts");
    for (int i = 0; i < 2; i++)
        pthread_join(threads[i], NULL);
    printf("two threads at once: %lu inputs each, answered as alone\n", count);
}

/* Each way of being broken in a process of its own, which must end with status 1. */
static void self_test(void) {
    for (int way = 0; way < BROKEN; way++) {
        int status;
        pid_t child = fork();
        if (child == 0) {
            broken = way;
            if (freopen("/dev/null", "w", stdout) == NULL)
                _exit(2);
            uint64_t *digests = (uint64_t *)room(SHARED * sizeof *digests);
            run(make_worker(0, SHARED, digests));
            run_twice_at_once(0, SHARED, digests);
            _exit(0);
        }
        if (child < 0 || waitpid(child, &status, 0) != child || !WIFEXITED(status) || WEXITSTATUS(status) != 1) {
            printf("wrong: way %d of being broken is not caught\n", way);
            exit(1);
        }
    }
    printf("self-test: %d ways of being broken, all caught\n", BROKEN);
}

/* 12 counts the inputs that need room and got none. Long runs must reach every refusal of an entry, and accept a fifth of its inputs. */
static int report(const struct tally *t, enum entry entry, int demanding) {
    int missed = t->accepted < t->inputs / 5;
    printf("%-15s %6lu inputs, %6lu damaged, %6lu accepted, longest %8lu;", entries[entry].name, t->inputs, t->damaged, t->accepted, t->longest);
    for (uint32_t number = 1; number < NUMBERS; number++)
        if (entries[entry].refusals >> number & 1) {
            printf(" %u: %lu", number, t->refused[number]);
            missed |= t->refused[number] == 0;
        }
    printf("%s\n", missed && demanding ? " (wrong: not deep enough)" : "");
    return missed && demanding;
}

int main(int argc, char **argv) {
    static uint64_t digests[SHARED];
    struct sigaction action = {.sa_handler = on_fault, .sa_flags = SA_ONSTACK};
    const int signals[] = {SIGSEGV, SIGBUS, SIGILL, SIGFPE, SIGABRT, SIGTRAP};
    if (argc != 4)
        return 2;
    seed = strtoul(argv[1], NULL, 10);
    unsigned long count = strtoul(argv[2], NULL, 10), first = strtoul(argv[3], NULL, 10), damaged = 0, calls = 0;
    int missed = 0;
    for (size_t i = 0; i < sizeof signals / sizeof *signals; i++)
        sigaction(signals[i], &action, NULL);
    setvbuf(stdout, NULL, _IOLBF, 0);
    fills = room(MOST + FILLS + SIDE);
    for (size_t i = 0; i < (MOST + FILLS + SIDE) / sizeof(uint64_t); i++)
        ((uint64_t *)fills)[i] = mix(mix(seed) - i);
    self_test();
    struct worker *w = make_worker(first, count, digests);
    run(w);
    for (int entry = 0; entry < ENTRIES; entry++) {
        missed |= report(&w->tallies[entry], (enum entry)entry, count >= ENOUGH);
        damaged += w->tallies[entry].damaged;
        calls += w->tallies[entry].calls;
    }
    run_twice_at_once(first, count < SHARED ? count : SHARED, digests);
    printf("fuzz: seed %lu, %lu inputs, %lu of them damaged, %lu calls, %d wrong\n", seed, count, damaged, calls, missed);
    return missed;
}
