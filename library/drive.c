/*
 * Runs a list of frames from standard input through the library, from a fresh
 * engine, and writes the answer lines to standard output.
 *
 *     drive frames < list         each line by linkage_frame
 *     drive typed < list          each line taken apart here, and its call made
 *                                 by the function of that call
 *     drive pieces N < list       the list as a stream, N bytes at a time
 *
 * For library/check.sh, which compares the answers with the frame program's.
 */

#include <stdio.h>
#include <stdlib.h>
#include <string.h>

#include "linkage.h"

static struct linkage_engine engine;

/* ------------------------------------------------------------ whole lists --- */

/* All of standard input; a byte more than it has is allocated. */
static char *slurp(size_t *length)
{
    size_t room = 1 << 16, n = 0, got;
    char *bytes = malloc(room);
    while (bytes && (got = fread(bytes + n, 1, room - n - 1, stdin)) > 0) {
        n += got;
        if (room - n == 1)
            bytes = realloc(bytes, room *= 2);
    }
    if (!bytes)
        exit(2);
    *length = n;
    return bytes;
}

/* Hands each line on without its line feed; one that has none at the end of the
 * input is not carried out. */
static void each_line(void (*answer)(const char *line, size_t length))
{
    size_t length;
    char *list = slurp(&length), *at = list, *stop = list + length, *feed;
    char out[LINKAGE_LONGEST];
    while ((feed = memchr(at, '\n', (size_t)(stop - at))) != NULL) {
        answer(at, (size_t)(feed - at));
        at = feed + 1;
    }
    fwrite(out, 1, linkage_finish((size_t)(stop - at), out, sizeof out), stdout);
    free(list);
}

/* ----------------------------------------------------------------- frames --- */

static void by_frame(const char *line, size_t length)
{
    char out[LINKAGE_LONGEST];
    fwrite(out, 1, linkage_frame(&engine, line, length, out, sizeof out), stdout);
}

/* ------------------------------------------------------------ typed calls --- */

/* The number of the digits from a place on, or -1 where one is no digit. */
static int take(const char *digits, int n, uint64_t *value)
{
    static const char all[] = "0123456789abcdef";
    *value = 0;
    while (n-- > 0) {
        const char *d = *digits ? strchr(all, *digits) : NULL;
        if (!d)
            return -1;
        *value = *value << 4 | (uint64_t)(d - all);
        digits++;
    }
    return 0;
}

/* The fields of a line: its kind, up to four numbers of two digits, and a set.
 * 0 where the line is no frame. */
static int fields(const char *line, size_t length, uint64_t x[4], uint64_t *set)
{
    static const size_t lengths[17] = { 0, 6, 6, 6, 6, 6, 4, 6, 22, 10, 6, 4, 6, 22, 10, 6, 6 };
    uint64_t kind;
    size_t i, n;
    if (length < 2 || take(line, 2, &kind) || kind < 1 || kind > 16 || lengths[kind] != length)
        return 0;
    n = length == 22 ? 2 : length / 2 - 1;
    for (i = 0; i < n; i++)
        if (take(line + 2 + 2 * i, 2, &x[i]))
            return 0;
    if (length == 22 && take(line + 6, 16, set))
        return 0;
    return (int)kind;
}

static void print_version(int n, uint32_t version)
{
    if (n == 0)
        printf("00%08x\n", version);
    else
        printf("%02x\n", n);
}

static void print_roles(int n, uint64_t roles)
{
    if (n == 0)
        printf("00%016llx\n", (unsigned long long)roles);
    else
        printf("%02x\n", n);
}

static void print_flow(int n, size_t flow, uint32_t size, uint32_t version)
{
    if (n == 0)
        printf("00%02zx%02x%08x\n", flow, size, version);
    else
        printf("%02x\n", n);
}

static void print_constraint(int n, size_t flow, const struct linkage_constraint *c)
{
    size_t i;
    printf("%02x", n);
    if (n == 0) {
        printf("%08x%016llx", c->version, (unsigned long long)c->deny);
        for (i = 0; i <= flow; i++)
            printf("%016llx", (unsigned long long)c->roles[i]);
    }
    printf("\n");
}

/* The kinds of the directory; they tell a version. */
static int change(int kind, const uint64_t x[4], uint32_t *told)
{
    switch (kind) {
    case 1: return linkage_assign(&engine, x[0], x[1], told);
    case 2: return linkage_withdraw(&engine, x[0], x[1], told);
    case 3: return linkage_permit(&engine, x[0], x[1], told);
    case 4: return linkage_revoke(&engine, x[0], x[1], told);
    case 5: return linkage_forward(&engine, x[0], x[1], told);
    default: return linkage_mandate(&engine, x[0], x[1], told);
    }
}

/* The kinds of a product, named by the server's: 6 to 10. */
static void ask(int kind, size_t product, const uint64_t x[4], uint64_t set)
{
    struct linkage_constraint shown = { 0, 0, { 0 } };
    uint64_t roles = 0;
    size_t flow = 0;
    uint32_t size = 0, told = 0;
    int n;
    switch (kind) {
    case 6:
        n = linkage_open(&engine, product, x[0], &told);
        print_version(n, told);
        break;
    case 7:
        n = linkage_conflicting(&engine, product, x[0], x[1], &roles);
        print_roles(n, roles);
        break;
    case 8:
        n = linkage_add(&engine, product, x[0], x[1], set, &flow, &size, &told);
        print_flow(n, flow, size, told);
        break;
    case 9:
        printf("%02x\n", linkage_read(&engine, product, x[0], x[1], x[2], x[3]));
        break;
    default:
        n = linkage_show(&engine, product, x[0], x[1], &shown);
        print_constraint(n, x[1], &shown);
        break;
    }
}

static void by_type(const char *line, size_t length)
{
    uint64_t x[4] = { 0, 0, 0, 0 }, set = 0;
    uint32_t told = 0;
    int kind = fields(line, length, x, &set), n;
    if (kind == 0) {
        printf("%02x\n", LINKAGE_MALFORMED);
    } else if (kind <= 5 || kind == 16) {
        n = change(kind, x, &told);
        print_version(n, told);
    } else if (kind <= 10) {
        ask(kind, LINKAGE_SERVER, x, set);
    } else {
        ask(kind - 5, LINKAGE_TERM_BANK, x, set);
    }
}

/* ----------------------------------------------------------------- pieces --- */

/* What is left of a piece when nothing more is taken has no line feed, so no
 * more than LINKAGE_KEPT bytes are kept: the buffer has room for the next
 * piece behind them. */
static void by_piece(size_t piece)
{
    char out[LINKAGE_LONGEST + 45];
    size_t room = LINKAGE_KEPT + piece, kept = 0, got, from, taken, n;
    char *buffer = malloc(room);
    if (!buffer)
        exit(2);
    while ((got = fread(buffer + kept, 1, piece, stdin)) > 0) {
        from = 0;
        do {
            n = linkage_feed(&engine, buffer + from, kept + got - from, out, sizeof out, &taken);
            fwrite(out, 1, n, stdout);
            from += taken;
        } while (taken > 0);
        kept = linkage_keep(buffer, room, from, kept + got);
    }
    fwrite(out, 1, linkage_finish(kept, out, sizeof out), stdout);
    free(buffer);
}

int main(int argc, char **argv)
{
    long piece = argc == 3 ? atol(argv[2]) : 0;
    linkage_fresh(&engine);
    if (argc == 2 && !strcmp(argv[1], "frames")) {
        each_line(by_frame);
    } else if (argc == 2 && !strcmp(argv[1], "typed")) {
        each_line(by_type);
    } else if (argc == 3 && !strcmp(argv[1], "pieces") && piece > 0) {
        by_piece((size_t)piece);
    } else {
        fputs("usage: drive frames | typed | pieces N   < list\n", stderr);
        return 2;
    }
    return fflush(stdout) ? 2 : 0;
}
