/*
 * What a read costs through the library, beside the same in C on the tables of
 * the reference model, in one program: by linkage_read beside a function of the
 * model's, by linkage_frame, one line at a time, beside the model's reader of
 * lines, and by linkage_feed, many lines at a time, beside the same reader.
 *
 *     measure LIST [ROUNDS]       a list of `reference/generate.py reads`
 *
 * Both engines run the whole list, and all answers have to agree.  Then the reads
 * of the list, in its order, are asked of the two engines as they are by then;
 * these verdicts have to agree too.  The rounds are in turn, after one that is
 * not counted; the time is the thread's CPU time.  For library/measure.sh.
 */

#define _POSIX_C_SOURCE 200809L

#define main model_main
#include "../reference/model.c"
#undef main

#include <stdlib.h>
#include <time.h>

#include "linkage.h"

enum { MOST_ROUNDS = 1000, WAYS = 6, LINE = 11, AT_ONCE = 5000 };

struct asked {
    uint8_t product, user, session, flow, database;
    char line[LINE];
};

static struct linkage_engine library;
static struct asked *reads;
static unsigned char *stream;       /* the lines of all reads */
static size_t count;

/* -------------------------------------------------------------- six ways --- */

/* The model's read as a function of any numbers, as linkage_read is.  It is
 * called, not inlined: so is the library's. */
__attribute__((noinline)) static int model_read(size_t product, size_t user, size_t session,
                                                size_t flow, size_t database)
{
    if (product >= 2 || user >= USERS || session >= SESSIONS || flow >= FLOWS || database >= DATABASES)
        return 2;
    unsigned n = read_flow(product ? BANK : SERVER, (unsigned)user, (unsigned)session,
                           (unsigned)flow, (unsigned)database);
    return n == GRANTED ? 0 : (int)n;
}

static unsigned digit(unsigned char c)
{
    return c <= '9' ? c - '0' : c - 'a' + 10u;
}

static unsigned library_call(const struct asked *r)
{
    return (unsigned)linkage_read(&library, r->product, r->user, r->session, r->flow, r->database);
}

static unsigned model_call(const struct asked *r)
{
    return (unsigned)model_read(r->product, r->user, r->session, r->flow, r->database);
}

static unsigned library_frame(const struct asked *r)
{
    unsigned char answer[LINKAGE_LONGEST];
    linkage_frame(&library, r->line, LINE - 1, answer, sizeof answer);
    return digit(answer[0]) << 4 | digit(answer[1]);
}

static unsigned model_frame(const struct asked *r)
{
    const unsigned char *p = (const unsigned char *)r->line;
    put = out;
    lines(p, p + LINE);
    return digit(out[0]) << 4 | digit(out[1]);
}

/* A loop for each way, so that each calls its function itself.  It gives a sum
 * in which each verdict counts by its place. */
static uint64_t sum_with(uint64_t sum, unsigned verdict)
{
    return sum * 31 + verdict;
}

#define LOOP(name, way) \
    static uint64_t name(void) \
    { \
        uint64_t sum = 0; \
        for (size_t i = 0; i < count; i++) \
            sum = sum_with(sum, way(&reads[i])); \
        return sum; \
    }
LOOP(library_calls, library_call)
LOOP(model_calls, model_call)
LOOP(library_frames, library_frame)
LOOP(model_frames, model_frame)

/* So many lines at a time that their answers have room in the model's buffer. */
static uint64_t library_stream(void)
{
    static unsigned char answers[3 * AT_ONCE + LINKAGE_LONGEST];
    uint64_t sum = 0;
    for (size_t i = 0, n; i < count; i += n) {
        size_t taken;
        n = count - i < AT_ONCE ? count - i : AT_ONCE;
        linkage_feed(&library, stream + LINE * i, LINE * n, answers, sizeof answers, &taken);
        for (size_t k = 0; k < n; k++)
            sum = sum_with(sum, digit(answers[3 * k]) << 4 | digit(answers[3 * k + 1]));
    }
    return sum;
}

static uint64_t model_stream(void)
{
    uint64_t sum = 0;
    for (size_t i = 0, n; i < count; i += n) {
        n = count - i < AT_ONCE ? count - i : AT_ONCE;
        put = out;
        lines(stream + LINE * i, stream + LINE * (i + n));
        for (size_t k = 0; k < n; k++)
            sum = sum_with(sum, digit(out[3 * k]) << 4 | digit(out[3 * k + 1]));
    }
    return sum;
}

static const struct { const char *name; uint64_t (*run)(void); } ways[WAYS] = {
    { "linkage_read", library_calls }, { "model, a call", model_calls },
    { "linkage_frame", library_frames }, { "model, a line", model_frames },
    { "linkage_feed", library_stream }, { "model, lines", model_stream }
};

/* ------------------------------------------------------------ the engines --- */

static void fail(const char *what, size_t line)
{
    fprintf(stderr, "measure: %s, line %zu\n", what, line);
    exit(1);
}

/* A read's line is kept, with its numbers. */
static void remember(const unsigned char *p)
{
    struct asked *r = &reads[count++];
    uint8_t x[5];
    for (int i = 0; i < 5; i++)
        x[i] = (uint8_t)(take(p + 2 * i) - DIGITS);
    r->product = x[0] == 9 + LIKE;
    r->user = x[1], r->session = x[2], r->flow = x[3], r->database = x[4];
    memcpy(r->line, p, LINE);
    memcpy(stream + LINE * (count - 1), p, LINE);
}

static bool is_read(const unsigned char *p, size_t length)
{
    unsigned valid = DIGITS;
    if (length != LINE - 1 || (memcmp(p, "09", 2) && memcmp(p, "0e", 2)))
        return false;
    for (int i = 2; i < 10; i += 2)
        valid &= take(p + i);
    return valid != 0;
}

/* One line in both engines; their answers have to agree. */
static void run_line(const unsigned char *p, size_t length, size_t number)
{
    unsigned char answer[LINKAGE_LONGEST];
    size_t n = linkage_frame(&library, p, length, answer, sizeof answer);
    put = out;
    lines(p, p + length + 1);
    if (n != (size_t)(put - out) || memcmp(answer, out, n))
        fail("the answers differ", number);
    if (is_read(p, length))
        remember(p);
}

static void run_list(const char *path)
{
    FILE *f = fopen(path, "rb");
    long size = f && !fseek(f, 0, SEEK_END) ? ftell(f) : -1;
    if (size < 0 || fseek(f, 0, SEEK_SET))
        fail("no list", 0);
    unsigned char *list = malloc((size_t)size + 1), *p = list, *feed;
    reads = malloc(((size_t)size / LINE + 1) * sizeof *reads);
    stream = malloc((size_t)size + 1);
    if (!list || !reads || !stream || fread(list, 1, (size_t)size, f) != (size_t)size)
        fail("no list", 0);
    fclose(f);
    for (size_t i = 1; (feed = memchr(p, '\n', (size_t)(list + size - p))) != NULL; i++) {
        run_line(p, (size_t)(feed - p), i);
        p = feed + 1;
    }
    free(list);
}

/* Each verdict in four ways, and how often each comes.  The streams' are compared
 * by their sums, in each round. */
static void compare_verdicts(void)
{
    size_t seen[16] = { 0 };
    for (size_t i = 0; i < count; i++) {
        unsigned n = library_call(&reads[i]);
        if (n > 15 || n != model_call(&reads[i]) || n != library_frame(&reads[i])
            || n != model_frame(&reads[i]))
            fail("the verdicts differ, read", i);
        seen[n]++;
    }
    printf("%zu reads, all verdicts agree: granted %zu", count, seen[0]);
    for (int n = 1; n < 16; n++)
        if (seen[n])
            printf(", %d %zu", n, seen[n]);
    printf("\n");
}

/* ------------------------------------------------------------------- time --- */

static double now(void)
{
    struct timespec t;
    clock_gettime(CLOCK_THREAD_CPUTIME_ID, &t);
    return (double)t.tv_sec * 1e9 + (double)t.tv_nsec;
}

static int by_size(const void *a, const void *b)
{
    double x = *(const double *)a, y = *(const double *)b;
    return (x > y) - (x < y);
}

int main(int argc, char **argv)
{
    static double took[WAYS][MOST_ROUNDS];
    int rounds = argc > 2 ? atoi(argv[2]) : 25;
    if (argc < 2 || rounds < 1 || rounds > MOST_ROUNDS) {
        fputs("usage: measure LIST [ROUNDS]\n", stderr);
        return 2;
    }
    fill_pairs();
    linkage_fresh(&library);
    run_list(argv[1]);
    if (count == 0)
        fail("no reads", 0);
    compare_verdicts();
    uint64_t sum = ways[0].run();
    for (int i = -1; i < rounds; i++)
        for (int w = 0; w < WAYS; w++) {
            double start = now();
            if (ways[w].run() != sum)
                fail("the verdicts differ in a round", 0);
            if (i >= 0)
                took[w][i] = (now() - start) / (double)count;
        }
    printf("ns a read, %d rounds in turn\n", rounds);
    for (int w = 0; w < WAYS; w++) {
        qsort(took[w], (size_t)rounds, sizeof took[w][0], by_size);
        printf("  %-14s best %6.2f   median %6.2f\n", ways[w].name, took[w][0], took[w][rounds / 2]);
    }
    for (int w = 0; w < WAYS; w += 2)
        printf("  %s / %s: best %.2f, median %.2f\n", ways[w].name, ways[w + 1].name,
               took[w][0] / took[w + 1][0], took[w][rounds / 2] / took[w + 1][rounds / 2]);
    printf("struct linkage_engine has %zu bytes\n", sizeof library);
    return 0;
}
