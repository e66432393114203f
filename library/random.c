/*
 * Calls every function of the library on engines of random contents, with random
 * and extreme numbers.  Each call is made twice: by the function of the header
 * on a struct, and by the archive's function on parts that lie apart, each with
 * a page before it or behind it that may not be touched.  An access outside of
 * a part ends the run by a signal.  Checked is that both ways give the same
 * answers and leave the same contents, that numbers are those of the refusal
 * table, and that a refused call leaves the engine and the answer as they were.
 *
 *     cc -fsanitize=address,undefined -Ilibrary library/random.c target/staticlib/liblinkage_c.a
 *     ./a.out [SEED [ENGINES]]
 */

#define _DEFAULT_SOURCE /* mmap with MAP_ANONYMOUS */

#include <stdio.h>
#include <stdlib.h>
#include <string.h>
#include <sys/mman.h>

#include "linkage.h"

enum { PAGE = 4096, BYTES = 300, CALLS = 200 };

static uint64_t seed;

static uint64_t draw(void)
{
    seed ^= seed << 13;
    seed ^= seed >> 7;
    seed ^= seed << 17;
    return seed;
}

/* A number for a user, a role, a place: within its limit or near it, or one at
 * which a sum or a product could wrap around. */
static size_t number(void)
{
    static const size_t edges[] = {
        0, 1, 2, 7, 8, 15, 16, 17, 31, 32, 63, 64, 65, 127, 128, 255, 256, 257, 2047, 2048,
        65535, 65536, 0x7fffffff, 0x80000000, 0xffffffff, 0x100000000, SIZE_MAX / 64,
        SIZE_MAX / 8, SIZE_MAX / 8 + 1, SIZE_MAX / 2, SIZE_MAX / 2 + 1, SIZE_MAX - 16, SIZE_MAX - 15,
        SIZE_MAX - 8, SIZE_MAX - 1, SIZE_MAX
    };
    switch (draw() % 8) {
    case 0: return draw();
    case 1: return edges[draw() % (sizeof edges / sizeof edges[0])];
    case 2: return draw() % 256;
    case 3: return draw() % 64;
    default: return draw() % 8;
    }
}

/* Random bytes, sparse ones, all alike, or small numbers of eight bytes. */
static void fill(void *bytes, size_t n)
{
    unsigned char *p = bytes;
    uint64_t way = draw() % 6, same = draw() & 1 ? 255 : 0;
    for (size_t i = 0; i < n; i++)
        p[i] = (unsigned char)(way < 2 ? draw() : way == 2 ? draw() & draw() & draw()
                               : way == 3 ? same : i % 8 ? 0 : draw() % 10);
}

/* Room for n bytes at the end of pages or at their start, with a page on either
 * side that may not be touched.  It is never given back. */
static void *guarded(size_t n, int at_end)
{
    size_t pages = (n + PAGE - 1) / PAGE * PAGE;
    char *p = mmap(NULL, pages + 2 * PAGE, PROT_NONE, MAP_PRIVATE | MAP_ANONYMOUS, -1, 0);
    if (p == MAP_FAILED || mprotect(p + PAGE, pages, PROT_READ | PROT_WRITE))
        exit(2);
    return p + PAGE + (at_end ? pages - n : 0);
}

/* ------------------------------------------------------- the parts, apart --- */

static struct linkage_engine whole, before;

static struct {
    uint64_t *roles, *readers, *forwards, *mandates;
    uint32_t *users, *version;
    uint64_t *opened;
    size_t *counts, *roots;
    uint64_t *reaches;
    uint32_t *versions;
    uint64_t *denies, *rolesets;
    unsigned char *input, *out;
} at;

/* Where what is told goes in the first way, and in the second, where it is
 * guarded too. */
struct told {
    uint64_t set;
    size_t place;
    uint32_t version, size;
    struct linkage_constraint shown;
};
static struct told first, unsaid;
static struct { uint64_t *set; size_t *place; uint32_t *version, *size; struct linkage_constraint *shown; } second;

#define EACH_PART(DO) \
    DO(roles) DO(readers) DO(forwards) DO(mandates) DO(users) DO(version) DO(opened) DO(counts) \
    DO(roots) DO(reaches) DO(versions) DO(denies) DO(rolesets)

static void make_parts(int at_end)
{
#define MAKE(part) at.part = guarded(sizeof whole.part, at_end);
    EACH_PART(MAKE)
#undef MAKE
    at.input = guarded(BYTES, at_end);
    at.out = guarded(BYTES, at_end);
    second.set = guarded(sizeof *second.set, at_end);
    second.place = guarded(sizeof *second.place, at_end);
    second.version = guarded(sizeof *second.version, at_end);
    second.size = guarded(sizeof *second.size, at_end);
    second.shown = guarded(sizeof *second.shown, at_end);
}

/* The struct gets random contents, and the parts the same. */
static void fill_engine(void)
{
#define FILL(part) \
    fill(&whole.part, sizeof whole.part); \
    memcpy(at.part, &whole.part, sizeof whole.part);
    EACH_PART(FILL)
#undef FILL
}

static int parts_agree(void)
{
#define SAME(part) && !memcmp(at.part, &whole.part, sizeof whole.part)
    return 1 EACH_PART(SAME);
#undef SAME
}

static int engine_as_before(void)
{
#define SAME(part) && !memcmp(&before.part, &whole.part, sizeof whole.part)
    return 1 EACH_PART(SAME);
#undef SAME
}

static void check(int holds, const char *what, unsigned kind)
{
    if (!holds) {
        printf("call %u: %s\n", kind, what);
        exit(1);
    }
}

/* ------------------------------------------------------------ both ways --- */

#define ALL_PARTS \
    at.roles, at.readers, at.forwards, at.mandates, at.users, at.version, at.opened, at.counts, \
    at.roots, at.reaches, at.versions, at.denies, at.rolesets

/* Gives the number by the header's function in the first place, by the archive's
 * in the second. */
static void call_change(unsigned kind, size_t x, size_t y, uint64_t n[2])
{
    struct linkage_engine *e = &whole;
    uint32_t *t = &first.version, *u = second.version;
    switch (kind) {
    case 0:
        n[0] = (uint64_t)linkage_assign(e, x, y, t);
        n[1] = linkage_lent_assign(at.roles, at.users, at.version, x, y, u);
        break;
    case 1:
        n[0] = (uint64_t)linkage_withdraw(e, x, y, t);
        n[1] = linkage_lent_withdraw(at.roles, *at.version, x, y, u);
        break;
    case 2:
        n[0] = (uint64_t)linkage_permit(e, x, y, t);
        n[1] = linkage_lent_permit(at.roles, at.readers, at.users, at.version, x, y, u);
        break;
    case 3:
        n[0] = (uint64_t)linkage_revoke(e, x, y, t);
        n[1] = linkage_lent_revoke(at.roles, at.readers, at.mandates, at.users, at.version, x, y, u);
        break;
    case 4:
        n[0] = (uint64_t)linkage_forward(e, x, y, t);
        n[1] = linkage_lent_forward(at.forwards, *at.version, at.counts, x, y, u);
        break;
    case 5:
        n[0] = (uint64_t)linkage_mandate(e, x, y, t);
        n[1] = linkage_lent_mandate(at.readers, at.mandates, *at.version, x, y, u);
        break;
    default:
        n[0] = (uint64_t)linkage_open(e, x, y, t);
        n[1] = linkage_lent_open(*at.version, at.opened, x, y, u);
        break;
    }
}

static void call_ask(unsigned kind, size_t p, size_t s, size_t x, uint64_t n[2])
{
    size_t u = number(), d = number();
    uint64_t chosen = draw() & draw() & draw();
    switch (kind) {
    case 7:
        n[0] = (uint64_t)linkage_conflicting(&whole, p, s, x, &first.set);
        n[1] = linkage_lent_conflicting(at.roles, at.readers, at.forwards, *at.opened, at.counts,
                                        at.reaches, p, s, x, second.set);
        break;
    case 8:
        if (draw() % 4 == 0)
            chosen = 0;
        else if (draw() % 2)    /* some that are accepted */
            linkage_conflicting(&whole, p, s, x, &chosen);
        n[0] = (uint64_t)linkage_add(&whole, p, s, x, chosen, &first.place, &first.size, &first.version);
        n[1] = linkage_lent_add(at.roles, at.readers, at.forwards, *at.version, *at.opened, at.counts,
                                at.roots, at.reaches, at.versions, at.denies, at.rolesets, p, s, x,
                                chosen, second.place, second.size, second.version);
        break;
    case 9:
        n[0] = (uint64_t)linkage_read(&whole, p, u, s, x, d);
        n[1] = linkage_lent_read(at.roles, at.readers, at.mandates, at.users, *at.opened, at.counts,
                                 at.reaches, at.versions, at.denies, at.rolesets, u,
                                 linkage_session(p, s), x, d);
        break;
    default:
        n[0] = (uint64_t)linkage_show(&whole, p, s, x, &first.shown);
        n[1] = linkage_lent_show(*at.opened, at.counts, at.versions, at.denies, at.rolesets, p, s, x,
                                 &second.shown->version, &second.shown->deny, second.shown->roles);
        break;
    }
}

/* Something like a frame: a kind with digits behind it, now and then another
 * byte, and some line feeds. */
static size_t write_input(void)
{
    static const unsigned char lengths[16] = { 6, 6, 6, 6, 6, 4, 6, 22, 10, 6, 4, 6, 22, 10, 6, 6 };
    size_t n = 0;
    while (n < BYTES - 30 && draw() % 8) {
        unsigned kind = (unsigned)(draw() % 16), length = lengths[kind];
        sprintf((char *)at.input + n, "%02x%08x%016llx", kind + 1, (unsigned)(draw() & 0x0f070f07),
                (unsigned long long)(draw() & draw() & 7));
        if (draw() % 8 == 0)
            at.input[n + draw() % length] = (unsigned char)draw();
        n += length;
        at.input[n++] = '\n';
    }
    return n;
}

/* The bytes stand at the end of the guarded room, or at its start. */
static void call_bytes(unsigned kind, int at_end, uint64_t n[2])
{
    unsigned char out[BYTES], kept[BYTES];
    size_t length = draw() % 4 ? write_input() : draw() % BYTES, taken[2] = { 0, 0 };
    size_t room = draw() % 4 ? LINKAGE_LONGEST + draw() % 100 : draw() % BYTES;
    const unsigned char *in = at.input;
    unsigned char *to = at.out + (at_end ? BYTES - room : 0);
    if (at_end)
        in = memmove(at.input + BYTES - length, at.input, length);
    memcpy(out, to, room);
    if (kind == 11) {
        if (length && in[length - 1] == '\n' && draw() % 2)
            length = (size_t)((unsigned char *)memchr(in, '\n', length) - in);
        n[0] = linkage_frame(&whole, in, length, out, room);
        n[1] = linkage_lent_frame(ALL_PARTS, in, length, to, room);
    } else if (kind == 12) {
        n[0] = linkage_feed(&whole, in, length, out, room, &taken[0]);
        n[1] = linkage_lent_feed(ALL_PARTS, in, length, to, room, second.place);
        taken[1] = *second.place;
    } else if (kind == 13) {
        size_t left = number();
        n[0] = linkage_finish(left, out, room);
        n[1] = linkage_finish(left, to, room);
    } else {
        size_t from = number(), end = number();
        memcpy(kept, in, length);
        n[0] = linkage_keep(kept, length, from, end);
        n[1] = linkage_keep((void *)in, length, from, end);
        check(!memcmp(kept, in, length) && n[0] <= length, "what is kept", kind);
    }
    check(!memcmp(out, to, room) && taken[0] == taken[1], "bytes differ", kind);
    check(n[0] <= BYTES && taken[0] <= length, "more than there is", kind);
}

/* ------------------------------------------------------------------ calls --- */

static unsigned long long made[15], accepted[15];

static void reset_told(void)
{
    fill(&unsaid, sizeof unsaid);
    first = unsaid;
    *second.set = unsaid.set;
    *second.place = unsaid.place;
    *second.version = unsaid.version;
    *second.size = unsaid.size;
    *second.shown = unsaid.shown;
}

static int told_agree(const struct told *t)
{
    const struct linkage_constraint *s = second.shown;
    return t->set == *second.set && t->place == *second.place && t->version == *second.version
        && t->size == *second.size && t->shown.version == s->version && t->shown.deny == s->deny
        && !memcmp(t->shown.roles, s->roles, sizeof s->roles);
}

static void call(int at_end)
{
    unsigned kind = (unsigned)(draw() % 15);
    uint64_t n[2] = { 0, 0 };
    reset_told();
    before = whole;
    if (kind < 6)
        call_change(kind, number(), number(), n);
    else if (kind == 6)
        call_change(kind, draw() % 8 ? draw() % 2 : number(), number(), n);
    else if (kind < 11)
        call_ask(kind, draw() % 8 ? draw() % 2 : number(), number(), number(), n);
    else
        call_bytes(kind, at_end, n);
    made[kind]++;
    accepted[kind] += kind < 11 ? n[0] == 0 : n[0] > 0;
    check(n[0] == n[1], "the two ways give two answers", kind);
    check(parts_agree(), "the two ways leave two engines", kind);
    if (kind >= 11)
        return;
    check(n[0] <= LINKAGE_MANDATED && linkage_words((int)n[0]) != NULL, "no such number", kind);
    check(told_agree(&first), "the two ways tell two things", kind);
    if (n[0]) {
        check(engine_as_before(), "refused, but changed", kind);
        check(told_agree(&unsaid), "refused, but told", kind);
    }
}

int main(int argc, char **argv)
{
    seed = (argc > 1 ? strtoull(argv[1], NULL, 10) : 1) * 0x9e3779b97f4a7c15u | 1;
    long engines = argc > 2 ? atol(argv[2]) : 2000;
    for (int at_end = 0; at_end < 2; at_end++) {
        make_parts(at_end);
        for (long i = 0; i < engines; i++) {
            fill_engine();
            for (int k = 0; k < CALLS; k++)
                call(at_end);
        }
    }
    static const char *const names[15] = {
        "assign", "withdraw", "permit", "revoke", "forward", "mandate", "open", "conflicting",
        "add", "read", "show", "frame", "feed", "finish", "keep"
    };
    printf("%ld engines of random contents, %ld calls", 2 * engines, 2 * engines * CALLS);
    printf("; accepted or answered:");
    for (int k = 0; k < 15; k++)
        printf(" %s %llu of %llu%s", names[k], accepted[k], made[k], k < 14 ? "," : "\n");
    return 0;
}
