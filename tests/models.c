/* Holds check_model, blocking and probes against expectations from elsewhere: every clause that haafgrim_clauses writes, evaluated one by one, for all models of
 * small boards and for changed models of large ones; and what the scope document says of probes, written a second time and tried on every grid of small boards.
 * Ends at the first wrong answer, with status 1. */
#include "haafgrim.h"
#include <stdio.h>
#include <stdlib.h>
#include <string.h>

enum { CELLS = 64 * 64, PUZZLE = 20611, VARIABLES = 262144, PAD = 8, PROBES = 1048576, CANARY = 0x5A };

static unsigned long checks;

static void expect(int right, const char *what) {
    checks++;
    if (!right) {
        printf("wrong: %s (check %lu)\n", what, checks);
        exit(1);
    }
}

static uint32_t random_word(void) {
    static uint64_t state = 88172645463325252u;
    state ^= state << 13;
    state ^= state >> 7;
    state ^= state << 17;
    return (uint32_t)(state >> 16);
}

static uint32_t below(uint32_t n) {
    return random_word() % n;
}

/* ---- a puzzle: its words, and of accepted ones its sizes, colours, variables and clauses */

struct puzzle {
    uint32_t words[PUZZLE + 8];
    size_t len;
    uint32_t number;
    size_t place, width, height, colors, variables, first_cell, clause_words;
    uint32_t palette[32];
    int32_t *clauses;
};

/* The place behind the lines of a section; with `set`, their colours are added to it. */
static size_t skip_lines(const uint32_t *words, size_t at, uint32_t *set) {
    for (size_t left = words[at++]; left > 0; left--)
        for (size_t blocks = words[at++]; blocks > 0; blocks--, at += 2)
            if (set != NULL)
                *set |= 1u << words[at + 1];
    return at;
}

static void open_puzzle(struct puzzle *z) {
    uint64_t counts[13];
    uint32_t set = 0;
    free(z->clauses);
    z->clauses = NULL;
    z->number = haafgrim_counts(z->words, z->len, counts, 13, &z->place);
    if (z->number != 0)
        return;
    size_t rows = skip_lines(z->words, 0, NULL);
    skip_lines(z->words, rows, &set);
    z->width = z->words[0];
    z->height = z->words[rows];
    z->colors = 0;
    for (uint32_t color = 1; color < 32; color++)
        if ((set != 0 ? set : 2) >> color & 1)
            z->palette[z->colors++] = color;
    z->variables = counts[0];
    z->first_cell = z->variables - z->width * z->height * z->colors + 1;
    z->clause_words = counts[12];
    z->clauses = malloc(z->clause_words * sizeof *z->clauses);
    size_t place;
    expect(z->clauses != NULL && haafgrim_clauses(z->words, z->len, z->clauses, z->clause_words, &place) == 0, "clauses of a test's puzzle");
}

/* ---- models */

struct answer { uint32_t number; size_t place; };

static int on(const uint8_t *model, size_t v) {
    return model[v - 1] == 1;
}

/* 15: the index of the first false clause, or -1. */
static long first_false(const struct puzzle *z, const uint8_t *model) {
    const int32_t *w = z->clauses;
    long index = 0;
    for (int section = 0; section < 10; section++)
        for (int32_t left = *w++; left > 0; left--, index++) {
            int true_one = 0;
            for (int32_t n = *w++; n > 0; n--, w++)
                true_one |= *w > 0 ? on(model, (size_t)*w) : !on(model, (size_t)-*w);
            if (!true_one)
                return index;
        }
    return -1;
}

static struct answer judge(const struct puzzle *z, const uint8_t *model, size_t len) {
    if (z->number != 0)
        return (struct answer){z->number, z->place};
    if (len != z->variables)
        return (struct answer){13, z->variables};
    for (size_t i = 0; i < len; i++)
        if (model[i] > 1)
            return (struct answer){14, i};
    long index = first_false(z, model);
    return index >= 0 ? (struct answer){15, (size_t)index} : (struct answer){0, 0};
}

/* The colours that the model shows, and its blocking clause. */
static void show(const struct puzzle *z, const uint8_t *model, uint8_t *cells, int32_t *clause, size_t *literals) {
    *literals = 0;
    for (size_t i = 0; i < z->width * z->height; i++) {
        cells[i] = 0;
        for (size_t r = 0; r < z->colors; r++) {
            size_t v = z->first_cell + i * z->colors + r;
            if (on(model, v)) {
                cells[i] = (uint8_t)z->palette[r];
                clause[++*literals] = -(int32_t)v;
            }
        }
    }
    clause[0] = (int32_t)*literals;
}

/* A lent buffer with bytes around it that must stay. */
static _Alignas(int32_t) uint8_t around[4 * (CELLS + 64) + 2 * PAD];

static void lend(size_t bytes) {
    memset(around, CANARY, bytes + 2 * PAD);
}

static int as_lent(size_t used, const void *written, size_t bytes) {
    if (used > 0 && memcmp(around + PAD, written, used) != 0)
        return 0;
    for (size_t i = 0; i < bytes + 2 * PAD; i++)
        if ((i < PAD || i >= PAD + used) && around[i] != CANARY)
            return 0;
    return 1;
}

/* Both calls, with a buffer of `room` elements. */
static void check_room(const struct puzzle *z, const uint8_t *model, size_t len, struct answer x, const uint8_t *cells, const int32_t *clause, size_t literals, size_t room) {
    size_t need = z->width * z->height, place = 77;
    lend(room);
    uint32_t number = haafgrim_check_model(z->words, z->len, model, len, around + PAD, room, &place);
    if (x.number != 0)
        expect(number == x.number && place == x.place && as_lent(0, NULL, room), "check_model refuses");
    else if (room < need)
        expect(number == 12 && place == need && as_lent(0, NULL, room), "check_model, 12");
    else
        expect(number == 0 && place == need && as_lent(need, cells, room), "check_model shows the picture");
    place = 77;
    lend(4 * room);
    number = haafgrim_blocking(z->words, z->len, model, len, (int32_t *)(around + PAD), room, &place);
    if (x.number != 0)
        expect(number == x.number && place == x.place && as_lent(0, NULL, 4 * room), "blocking refuses");
    else if (room < literals + 1)
        expect(number == 12 && place == literals + 1 && as_lent(0, NULL, 4 * room), "blocking, 12");
    else
        expect(number == 0 && place == literals + 1 && as_lent(4 * (literals + 1), clause, 4 * room), "blocking writes the clause");
}

/* With `all`, every room up to one more than is needed. Answers whether the model is accepted. */
static int check_model(const struct puzzle *z, const uint8_t *model, size_t len, int all) {
    static uint8_t cells[CELLS];
    static int32_t clause[CELLS + 1];
    size_t literals = 0;
    struct answer x = judge(z, model, len);
    if (x.number == 0)
        show(z, model, cells, clause, &literals);
    size_t need = x.number != 0 ? 4 : z->width * z->height > literals + 1 ? z->width * z->height : literals + 1;
    for (size_t room = all ? 0 : need - 1; room <= need + 1; room++)
        check_room(z, model, len, x, cells, clause, literals, room);
    return x.number == 0;
}

/* The model of a grid that reads as the clues. */
static void place_line(const struct puzzle *z, const uint8_t *cells, size_t begin, size_t step, size_t n, const uint32_t *clue, size_t blocks, uint8_t *model, size_t *v) {
    uint32_t starts[66];
    size_t place, block = 0;
    (void)z;
    expect(haafgrim_starts(n, clue, 2 * blocks, starts, 66, &place) == 0, "starts of a test's clue");
    for (size_t i = 0; i < n; i++) {
        uint8_t color = cells[begin + i * step];
        if (color != 0 && (i == 0 || cells[begin + (i - 1) * step] != color)) {
            model[*v + block * starts[0] + (i - starts[2 + block])] = 1;
            block++;
        }
    }
    *v += blocks * starts[0];
}

static void model_of(const struct puzzle *z, const uint8_t *cells, uint8_t *model) {
    size_t v = 0, at = 1;
    memset(model, 0, z->variables);
    for (size_t x = 0; x < z->width; x++, at += 1 + 2 * z->words[at])
        place_line(z, cells, x, z->width, z->height, z->words + at + 1, z->words[at], model, &v);
    at++;
    for (size_t y = 0; y < z->height; y++, at += 1 + 2 * z->words[at])
        place_line(z, cells, y * z->width, 1, z->width, z->words + at + 1, z->words[at], model, &v);
    for (size_t i = 0; i < z->width * z->height; i++)
        for (size_t r = 0; r < z->colors; r++)
            model[v++] = cells[i] == z->palette[r];
}

static struct puzzle board;
static uint8_t grid[CELLS], bytes[VARIABLES + 8];

static void set_puzzle(const uint32_t *words, size_t n) {
    memcpy(board.words, words, n * sizeof *words);
    board.len = n;
    open_puzzle(&board);
}

static void random_grid(size_t width, size_t height, uint32_t colors, uint32_t blank) {
    for (size_t i = 0; i < width * height; i++)
        grid[i] = (uint8_t)(below(100) < blank ? 0 : i > 0 && below(3) == 0 ? grid[i - 1] : 1 + below(colors));
}

static void read_board(size_t width, size_t height) {
    expect(haafgrim_read_grid(width, height, grid, width * height, board.words, PUZZLE, &board.len) == 0, "reading a test's grid");
    open_puzzle(&board);
}

/* Masks that the grid obeys: solved with its cell, its cell and another bit, or whole. */
static void mask_board(void) {
    size_t cells = board.width * board.height;
    uint32_t whole = board.words[board.len - 1];
    for (size_t i = 0; i < cells; i++) {
        uint32_t own = 1u << grid[i];
        board.words[board.len - cells + i] = below(3) == 0 ? own : below(2) == 0 ? own | 1u << below(32) : whole;
    }
    open_puzzle(&board);
}

/* All assignments of boards of few variables: as many are accepted as there are pictures. */
static void every_model(const uint32_t *words, size_t n, unsigned pictures) {
    unsigned accepted = 0;
    set_puzzle(words, n);
    for (uint32_t code = 0; code < 1u << board.variables; code++) {
        for (size_t i = 0; i < board.variables; i++)
            bytes[i] = (uint8_t)(code >> i & 1);
        accepted += (unsigned)check_model(&board, bytes, board.variables, code % 64 == 0);
    }
    expect(accepted == pictures, "as many models are accepted as there are pictures");
}

#define EVERY(pictures, ...) every_model((uint32_t[]){__VA_ARGS__}, sizeof(uint32_t[]){__VA_ARGS__} / sizeof(uint32_t), pictures)

static void small_models(void) {
    EVERY(1, 1, 1, 1, 1, 1, 1, 1, 1, 1, 3);
    EVERY(0, 1, 1, 1, 1, 1, 1, 1, 1, 1, 1);
    EVERY(1, 1, 1, 1, 1, 1, 1, 1, 1, 1, 2);
    EVERY(1, 1, 0, 1, 0, 1, 3);
    EVERY(0, 1, 0, 1, 0, 1, 2);
    EVERY(1, 2, 1, 1, 1, 0, 1, 1, 1, 1, 2, 3, 3);
    EVERY(2, 2, 1, 1, 1, 1, 1, 1, 2, 1, 1, 1, 1, 1, 1, 4, 3, 3, 3, 3);
    EVERY(1, 2, 1, 1, 1, 1, 1, 1, 2, 1, 1, 1, 1, 1, 1, 4, 3, 3, 2, 3);
    EVERY(1, 2, 1, 1, 1, 1, 1, 1, 2, 1, 1, 1, 1, 1, 1, 4, 3, 1, 3, 3);
    EVERY(1, 2, 1, 1, 1, 1, 1, 1, 2, 1, 1, 1, 1, 1, 1, 4, 3, 3, 3, 33);
    EVERY(0, 2, 1, 1, 1, 1, 1, 1, 2, 1, 1, 1, 1, 1, 1, 4, 2, 2, 3, 3);
    EVERY(1, 2, 1, 1, 2, 1, 1, 5, 1, 2, 1, 2, 1, 5, 2, 37, 37);
    EVERY(1, 2, 1, 1, 2, 1, 1, 5, 1, 2, 1, 2, 1, 5, 2, 36, 37);
    EVERY(0, 2, 1, 1, 2, 1, 1, 5, 1, 2, 1, 2, 1, 5, 2, 32, 37);
    EVERY(1, 1, 2, 1, 3, 1, 31, 3, 1, 1, 3, 0, 1, 1, 31, 3, 9, 1, 0xFFFFFFFF);
    EVERY(0, 1, 2, 1, 31, 1, 3, 3, 1, 1, 3, 0, 1, 1, 31, 3, 9, 1, 0xFFFFFFFF);
}

/* Of random boards: the model of their picture, each byte changed, other lengths. */
static void changed_models(void) {
    for (int round = 0; round < 300; round++) {
        size_t width = 1 + below(6), height = 1 + below(6);
        random_grid(width, height, 1 + below(4), 20 + below(70));
        read_board(width, height);
        if (round % 2 == 0)
            mask_board();
        model_of(&board, grid, bytes);
        expect(check_model(&board, bytes, board.variables, 1), "the model of a picture is accepted");
        for (size_t i = 0; i < board.variables; i++) {
            bytes[i] ^= 1;
            expect(!check_model(&board, bytes, board.variables, 0), "a model that differs in a byte is not");
            bytes[i] ^= 1;
        }
        for (int more = 0; more < 20; more++) {
            size_t i = below((uint32_t)board.variables);
            uint8_t own = bytes[i];
            bytes[i] = (uint8_t)below(256);
            check_model(&board, bytes, board.variables, 0);
            bytes[i] = own;
        }
        check_model(&board, bytes, 0, 1);
        check_model(&board, bytes, board.variables - 1, 1);
        check_model(&board, bytes, board.variables + 1, 1);
        board.words[below((uint32_t)board.len)] = below(40);
        open_puzzle(&board);
        check_model(&board, bytes, board.number == 0 ? board.variables : 9, 1);
    }
}

static void large_models(void) {
    static const uint32_t colors[] = {1, 1, 4, 31};
    static const uint32_t blanks[] = {50, 97, 30, 90};
    for (size_t round = 0; round < 4; round++) {
        random_grid(64, 64, colors[round], blanks[round]);
        read_board(64, 64);
        model_of(&board, grid, bytes);
        expect(check_model(&board, bytes, board.variables, 0), "the model of a large picture is accepted");
        for (int more = 0; more < 12; more++) {
            size_t i = more == 0 ? 0 : more == 1 ? board.variables - 1 : below((uint32_t)board.variables);
            bytes[i] ^= 1;
            expect(!check_model(&board, bytes, board.variables, 0), "a large model that differs in a byte is not");
            bytes[i] ^= 1;
        }
        memset(bytes, 0, board.variables);
        check_model(&board, bytes, board.variables, 0);
        memset(bytes, 1, board.variables);
        check_model(&board, bytes, board.variables, 0);
        bytes[board.variables - 1] = 2;
        check_model(&board, bytes, board.variables, 0);
    }
}

/* ---- probes */

static uint32_t probe[PROBES + 8];
static int32_t *section, *lent_section;
enum { SECTION = 4000000 };

static size_t first_variable(const struct puzzle *z, const uint32_t *claim) {
    return z->first_cell + (claim[1] * z->width + claim[0]) * z->colors;
}

static int known(const struct puzzle *z, uint32_t color) {
    for (size_t r = 0; r < z->colors; r++)
        if (z->palette[r] == color)
            return 1;
    return 0;
}

/* 17 and 18 of a claim at `at`, or 1 where it is not whole; in order. */
static struct answer claim_at(const struct puzzle *z, const uint32_t *w, size_t n, size_t at) {
    const uint64_t most[] = {z->width, z->height, 32};
    for (size_t i = 0; i < 3; i++) {
        if (at + i >= n)
            return (struct answer){1, n};
        if (w[at + i] >= most[i])
            return (struct answer){i == 2 ? 18 : 17, at + i};
    }
    return (struct answer){0, 0};
}

static void put_clause(const struct puzzle *z, const uint32_t *p, int32_t literal, size_t *at) {
    size_t v = first_variable(z, p), count = p[2] == 0 ? z->colors : 1, to = *at + 1;
    for (size_t r = 0; r < z->colors; r++)
        if (p[2] == 0 || z->palette[r] == p[2])
            section[to++] = p[2] == 0 ? (int32_t)(v + r) : -(int32_t)(v + r);
    section[to++] = literal;
    section[*at] = (int32_t)count + 1;
    *at = to;
    section[0]++;
}

/* The verdict before 12; the section is left in `section` and its length in `need`. */
static struct answer judge_probes(const struct puzzle *z, const uint32_t *w, size_t n, size_t *need) {
    size_t at = 1;
    struct answer x;
    section[0] = 0;
    *need = 1;
    if (z->number != 0)
        return (struct answer){z->number, z->place};
    if (n > PROBES)
        return (struct answer){20, n};
    if (n == 0)
        return (struct answer){1, 0};
    for (uint64_t left = w[0]; left > 0; left--) {
        const uint32_t *p = w + at;
        x = claim_at(z, w, n, at);
        if (x.number != 0)
            return x;
        if (p[2] != 0 && !known(z, p[2]))
            return (struct answer){19, at + 2};
        if (at + 3 >= n)
            return (struct answer){1, n};
        at += 4;
        for (uint64_t impacts = p[3]; impacts > 0; impacts--, at += 3) {
            x = claim_at(z, w, n, at);
            if (x.number != 0)
                return x;
            for (size_t r = 0; r < z->colors; r++) {
                int32_t v = (int32_t)(first_variable(z, w + at) + r);
                if (w[at + 2] == 0 || w[at + 2] == z->palette[r])
                    put_clause(z, p, w[at + 2] == 0 ? -v : v, need);
            }
        }
    }
    return at < n ? (struct answer){11, at} : (struct answer){0, 0};
}

static struct answer check_probes(const struct puzzle *z, const uint32_t *w, size_t n) {
    size_t need;
    struct answer x = judge_probes(z, w, n, &need);
    size_t rooms[] = {0, need - 1, need, need + 3};
    for (size_t i = 0; i < 4; i++) {
        size_t place = 77, room = rooms[i], used = 0;
        memset(lent_section, CANARY, (need + 4) * sizeof *lent_section);
        uint32_t number = haafgrim_probes(z->words, z->len, w, n, lent_section + 1, room, &place);
        if (x.number != 0)
            expect(number == x.number && place == x.place, "probes refuses");
        else if (room < need)
            expect(number == 12 && place == need, "probes, 12");
        else {
            used = need;
            expect(number == 0 && place == need && memcmp(lent_section + 1, section, need * sizeof *section) == 0, "probes writes the section");
        }
        for (size_t k = 0; k < need + 4; k++)
            if ((k < 1 || k >= 1 + used) && lent_section[k] != 0x5A5A5A5A)
                expect(0, "probes leaves the rest");
    }
    return x;
}

/* Every grid of blank and K: the section is true of its cell variables exactly when each impact that is not dropped holds where its probe does. */
static void check_meaning(const struct puzzle *z, const uint32_t *w) {
    size_t cells = z->width * z->height, grids = 1;
    for (size_t i = 0; i < cells; i++)
        grids *= z->colors + 1;
    for (size_t code = 0; code < grids; code++) {
        size_t rest = code, at = 1;
        int implied = 1, all = 1;
        for (size_t i = 0; i < cells; i++, rest /= z->colors + 1)
            grid[i] = (uint8_t)(rest % (z->colors + 1) == 0 ? 0 : z->palette[rest % (z->colors + 1) - 1]);
        for (uint32_t left = w[0]; left > 0; left--) {
            int there = grid[w[at + 1] * z->width + w[at]] == w[at + 2];
            uint32_t impacts = w[at + 3];
            for (at += 4; impacts > 0; impacts--, at += 3)
                if (there && (w[at + 2] == 0 || known(z, w[at + 2])) && grid[w[at + 1] * z->width + w[at]] != w[at + 2])
                    implied = 0;
        }
        const int32_t *c = section + 1;
        for (int32_t left = section[0]; left > 0; left--) {
            int true_one = 0;
            for (int32_t n = *c++; n > 0; n--, c++) {
                size_t k = (size_t)abs(*c) - z->first_cell;
                true_one |= (grid[k / z->colors] == z->palette[k % z->colors]) == (*c > 0);
            }
            all &= true_one;
        }
        expect(implied == all, "the section says what the probes say");
    }
}

static size_t random_claim(const struct puzzle *z, uint32_t *w, int any) {
    w[0] = below((uint32_t)z->width);
    w[1] = below((uint32_t)z->height);
    w[2] = below(4) == 0 ? 0 : any && below(3) == 0 ? below(32) : z->palette[below((uint32_t)z->colors)];
    return 3;
}

static size_t random_probes(const struct puzzle *z) {
    size_t n = 1;
    probe[0] = below(5);
    for (uint32_t i = 0; i < probe[0]; i++) {
        n += random_claim(z, probe + n, 0);
        uint32_t impacts = below(5);
        probe[n++] = impacts;
        for (uint32_t j = 0; j < impacts; j++)
            n += random_claim(z, probe + n, 1);
    }
    return n;
}

static void small_probes(void) {
    for (int round = 0; round < 2000; round++) {
        size_t width = 1 + below(3), height = 1 + below(2);
        random_grid(width, height, 1 + below(3), 40);
        read_board(width, height);
        size_t n = random_probes(&board);
        expect(check_probes(&board, probe, n).number == 0, "probes on the grid are accepted");
        check_meaning(&board, probe);
        for (size_t cut = 0; cut <= n; cut++)
            check_probes(&board, probe, cut);
        for (size_t i = 0; i < n; i++) {
            static const uint32_t odd[] = {0, 1, 2, 3, 31, 32, 63, 64, 0x55555556, 0x7FFFFFFF, 0x80000000, 0xFFFFFFFF};
            uint32_t own = probe[i];
            probe[i] = odd[below(sizeof odd / sizeof *odd)];
            check_probes(&board, probe, n);
            probe[i] = own;
        }
        probe[n] = below(3);
        check_probes(&board, probe, n + 1);
        board.words[below((uint32_t)board.len)] = below(40);
        open_puzzle(&board);
        check_probes(&board, probe, n);
    }
}

/* A list of exactly so many words, whose three probes have all impacts. */
static size_t long_probes(uint32_t probe_color, uint32_t impact_color) {
    size_t n = 1;
    probe[0] = 3;
    for (uint32_t i = 0; i < 3; i++) {
        uint32_t impacts = i == 2 ? (PROBES - 1 - 12) / 3 - 2 : 1;
        memcpy(probe + n, (uint32_t[]){0, 0, probe_color, impacts}, 16);
        for (n += 4; impacts > 0; impacts--, n += 3)
            memcpy(probe + n, (uint32_t[]){(uint32_t)board.width - 1, (uint32_t)board.height - 1, impact_color}, 12);
    }
    return n;
}

static void most_probes(void) {
    size_t place;
    memset(grid, 1, CELLS);
    read_board(64, 64);
    size_t n = long_probes(1, 1);
    expect(n == PROBES && check_probes(&board, probe, n).number == 0, "1,048,576 words are accepted");
    memset(probe + n, 0, 8 * sizeof *probe);
    expect(check_probes(&board, probe, n + 1).number == 20, "one more is 20");
    probe[0] = 4;
    expect(check_probes(&board, probe, n).number == 1, "a probe that is promised is missed");
    memset(probe, 0, sizeof probe);
    expect(check_probes(&board, probe, PROBES).number == 11, "1,048,576 words are walked");
    for (size_t i = 0; i < CELLS; i++)
        grid[i] = (uint8_t)(1 + i % 31);
    read_board(64, 64);
    n = long_probes(0, 0);
    expect(haafgrim_probes(board.words, board.len, probe, n, NULL, 0, &place) == 12, "no room for the longest section");
    expect(place == 1 + 349521ul * 31 * 33, "the longest section has 357,559,984 words");
}

int main(void) {
    section = malloc(SECTION * sizeof *section);
    lent_section = malloc(SECTION * sizeof *lent_section);
    expect(section != NULL && lent_section != NULL, "memory for the tests");
    small_models();
    changed_models();
    large_models();
    small_probes();
    most_probes();
    printf("models and probes: %lu checks, 0 wrong\n", checks);
    return 0;
}
