/* Two lookups of one session that nobody may put side by side, by the library:
 *     cc -Ilibrary -o example library/example.c target/staticlib/liblinkage_c.a */
#include <stdio.h>

#include "linkage.h"

static void ask(const struct linkage_engine *e, size_t user, size_t flow, size_t database)
{
    int n = linkage_read(e, LINKAGE_SERVER, user, 0, flow, database);
    printf("user %zu, flow %zu: %s\n", user, flow,
           n == LINKAGE_GRANTED ? "granted" : linkage_words(n));
}

int main(void)
{
    struct linkage_engine e;
    uint64_t found = 0;
    int n = 0;
    linkage_fresh(&e);
    /* User 1 holds roles 0 and 1, user 2 role 1 alone.  Role 0 reads database 0, role 1 database 1. */
    n |= linkage_assign(&e, 1, 0, NULL);
    n |= linkage_assign(&e, 1, 1, NULL);
    n |= linkage_assign(&e, 2, 1, NULL);
    n |= linkage_permit(&e, 0, 0, NULL);
    n |= linkage_permit(&e, 1, 1, NULL);
    n |= linkage_open(&e, LINKAGE_SERVER, 0, NULL);
    /* A flow of each.  For the second, ask which roles conflict, and deny role 0. */
    n |= linkage_add(&e, LINKAGE_SERVER, 0, 0, 0, NULL, NULL, NULL);
    n |= linkage_conflicting(&e, LINKAGE_SERVER, 0, 1, &found);
    n |= linkage_add(&e, LINKAGE_SERVER, 0, 1, found & 1, NULL, NULL, NULL);
    printf("all accepted: %s; conflicting roles: %llx\n", n ? "no" : "yes", (unsigned long long)found);
    ask(&e, 1, 0, 0);
    ask(&e, 1, 1, 1);
    ask(&e, 2, 1, 1);
    return n;
}
