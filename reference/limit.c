/*
 * Drives a frame program from a fresh engine to the last version, which no
 * stored list reaches, and on: a role is assigned, which gives a new version,
 * and withdrawn, which gives none, until there is no version left.  Every
 * answer is checked, and those at the limit are printed beside their frames.
 *
 *     cc -O2 -o limit limit.c         (POSIX)
 *     ./limit target/bin/linkage      some minutes; 60 GB go in and 94 come out
 *
 * Exits 1 at the first answer that differs.
 */

#include <stdint.h>
#include <stdio.h>
#include <stdlib.h>
#include <string.h>
#include <unistd.h>

static const uint64_t LAST_VERSION = 4294967295u;

#define PAIR "010000\n020000\n"
enum { AT_ONCE = 4096, PAIR_BYTES = sizeof PAIR - 1, ANSWER_BYTES = 11 };

/* At the limit: 9 for 01, and for 03 and 04 of a role that somebody holds; all
 * else is accepted.  Role 0 is withdrawn there, and user 1 holds role 1. */
static const struct { const char *frame, *answer; } end[] = {
    { "010000", "09" }, { "020000", "04" },
    { "030000", "00ffffffff" }, { "040000", "00ffffffff" }, { "030000", "00ffffffff" },
    { "030102", "09" }, { "040101", "09" }, { "040102", "04" }, { "030101", "03" },
    { "100101", "00ffffffff" }, { "040101", "0f" },
    { "050102", "00ffffffff" }, { "0600", "00ffffffff" },
    { "0800010000000000000000", "000002ffffffff" }, { "0901000001", "00" },
    { "0a0000", "00ffffffff00000000000000000000000000000000" },
    { "020101", "00ffffffff" }, { "030102", "00ffffffff" }, { "0901000001", "0c" },
};
enum { ENDS = sizeof end / sizeof end[0] };

static FILE *answers;
static uint64_t lines;

static void put(int fd, const char *p, size_t n)
{
    while (n) {
        ssize_t k = write(fd, p, n);
        if (k <= 0)
            exit(2);
        p += k;
        n -= (size_t)k;
    }
}

/* The first two lines give user 1 role 1, which may read database 1. */
static void feed(int fd)
{
    static char pairs[AT_ONCE * PAIR_BYTES];
    for (int i = 0; i < AT_ONCE; i++)
        memcpy(pairs + i * PAIR_BYTES, PAIR, PAIR_BYTES);
    put(fd, "030101\n010101\n", 14);
    uint64_t left = LAST_VERSION - 1;
    for (; left >= AT_ONCE; left -= AT_ONCE)
        put(fd, pairs, sizeof pairs);
    put(fd, pairs, left * PAIR_BYTES);
    for (int i = 0; i < ENDS; i++) {
        put(fd, end[i].frame, strlen(end[i].frame));
        put(fd, "\n", 1);
    }
}

/* Adds one to the eight digits of an answer. */
static void rise(char *answer)
{
    char *d = answer + ANSWER_BYTES - 2;
    while (*d == 'f')
        *d-- = '0';
    *d = *d == '9' ? 'a' : *d + 1;
}

static void expect(const char *want)
{
    char line[256];
    lines++;
    if (!fgets(line, sizeof line, answers) || strcmp(line, want)) {
        printf("line %llu: expected %s", (unsigned long long)lines, want);
        exit(1);
    }
}

int main(int argc, char **argv)
{
    int in[2], out[2];
    if (argc != 2 || pipe(in) || pipe(out)) {
        fprintf(stderr, "usage: limit PROGRAM\n");
        return 2;
    }
    if (fork() == 0) {
        dup2(in[0], 0);
        dup2(out[1], 1);
        close(in[0]), close(in[1]), close(out[0]), close(out[1]);
        execlp(argv[1], argv[1], (char *)0);
        _exit(2);
    }
    close(in[0]), close(out[1]);
    if (fork() == 0) {
        close(out[0]);
        feed(in[1]);
        _exit(0);
    }
    close(in[1]);

    answers = fdopen(out[0], "r");
    char want[] = "0000000000\n";
    expect(want);
    rise(want);
    expect(want);
    for (uint64_t v = 2; v <= LAST_VERSION; v++) {
        rise(want);
        expect(want);
        expect(want);
    }
    printf("%llu lines as expected, the last %s", (unsigned long long)lines, want);
    for (int i = 0; i < ENDS; i++) {
        char answer[64];
        snprintf(answer, sizeof answer, "%s\n", end[i].answer);
        expect(answer);
        printf("%-22s %s", end[i].frame, answer);
    }
    return fgetc(answers) == EOF ? 0 : 1;
}
