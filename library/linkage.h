/*
 * The linkage engine for C (C99) and C++.  The archive to link is
 * liblinkage_c.a, for x86-64, made by `tools/build.sh linkage_c`:
 *
 *     cc -Ilibrary program.c target/staticlib/liblinkage_c.a
 *
 * An engine is a struct of the caller's, of some 28 kilobytes, wherever he likes
 * to keep it.  Nothing is allocated, nothing is global, and no function reads,
 * writes or waits for anything but what it is given.  Two kilobytes of stack
 * were enough for each.  README.md says what the calls mean and what they protect
 * from, docs/FRAMES.md has each call and each refusal with an example.
 *
 *     struct linkage_engine e;
 *     linkage_fresh(&e);
 *     if (linkage_read(&e, LINKAGE_SERVER, user, session, flow, database) == LINKAGE_GRANTED)
 *         ..
 *
 * WHAT A FUNCTION ANSWERS.  A function of a call gives back 0 where the call is
 * accepted, else the number of the refusal.  A refused call changes nothing, of
 * the engine or of the caller's.  An accepted one puts the values of its answer
 * where the caller's pointers lead; NULL for such a pointer says that the value
 * is not wanted.
 *
 * WHAT IS PROVED.  The functions of the archive, which are declared below as
 * linkage_lent_.., linkage_session, linkage_keep and linkage_finish: each answer, and all that
 * is lent to the function after it, is what an equation says, for any contents
 * of the engine and any numbers.  None has a premise about them.  So a struct
 * of any contents is safe: no crash, and no access outside of what is lent.
 *
 * WHAT IS NOT PROVED.  The inline functions of this header, which lend the parts
 * of a struct to those functions: they are short, and library/check.sh tries
 * them.  The C compiler.  And what is assumed of a caller:
 *
 *   - Pointers are valid for the lengths that stand with them.  Those to an
 *     engine, to bytes and to `consumed` are not NULL, for no bytes neither.
 *   - What one call is given does not overlap: no answer goes into the engine,
 *     and `out` is not in `input`.
 *   - Calls that take an engine as const may run side by side, in several
 *     threads, while nothing changes it.  A call that may change it has to be
 *     alone in it.
 *   - The promises about whole lists of calls, the third demand of
 *     docs/PROMISES.md among them, are about a struct that linkage_fresh has
 *     made and that nothing but these functions has changed since.
 */

#ifndef LINKAGE_H
#define LINKAGE_H

#include <stddef.h>
#include <stdint.h>

#define LINKAGE_RELEASE "2.3.1"

#ifdef __cplusplus
extern "C" {
#endif

/* How many there are of each; numbers begin with 0. */
#define LINKAGE_USERS 256
#define LINKAGE_ROLES 64
#define LINKAGE_DATABASES 64
#define LINKAGE_PRODUCTS 2
#define LINKAGE_SESSIONS 16 /* of each product */
#define LINKAGE_FLOWS 8     /* of each session, at most */

/* The sizes of the arrays: sessions of both products, their flows, and a role
 * set for each flow of a flow's session. */
#define LINKAGE_ALL_SESSIONS (LINKAGE_PRODUCTS * LINKAGE_SESSIONS)
#define LINKAGE_PLACES (LINKAGE_ALL_SESSIONS * LINKAGE_FLOWS)
#define LINKAGE_ROLE_SETS (LINKAGE_PLACES * LINKAGE_FLOWS)

/* The longest answer line with its line feed, and how many bytes linkage_keep
 * keeps of an unfinished line at most. */
#define LINKAGE_LONGEST 155
#define LINKAGE_KEPT 23

/* The archive is for a size_t of 64 bits: else this has no size. */
typedef char linkage_size_t_has_64_bits[sizeof(size_t) == 8 ? 1 : -1];

/* The products on one directory.  Each has sessions of its own. */
enum linkage_product { LINKAGE_SERVER = 0, LINKAGE_TERM_BANK = 1 };

/* What a call gives back: 0, or the row of the refusal table that it meets. */
enum linkage_answer {
    LINKAGE_ACCEPTED = 0,
    LINKAGE_GRANTED = 0, /* an accepted read */
    LINKAGE_MALFORMED = 1,
    LINKAGE_ABOVE_LIMIT = 2,
    LINKAGE_ALREADY_THERE = 3,
    LINKAGE_NOT_THERE = 4,
    LINKAGE_FLOW_ADDED = 5,
    LINKAGE_NOT_OPEN = 6,
    LINKAGE_SESSION_FULL = 7,
    LINKAGE_NOT_CONFLICTING = 8,
    LINKAGE_VERSIONS_SPENT = 9,
    LINKAGE_NO_SUCH_FLOW = 10,
    LINKAGE_OUT_OF_REACH = 11,
    LINKAGE_NO_PERMISSION = 12,
    LINKAGE_CHANGED = 13,
    LINKAGE_LINKABLE = 14,
    LINKAGE_MANDATED = 15
};

/* An engine.  Sets of roles and of databases are bits, number 0 the lowest.
 * Flow f of session s of a product p has place (16p + s) * 8 + f.  What is not
 * in use is zero.  Look as you like; what is changed by hand is outside the
 * promises about lists of calls. */
struct linkage_engine {
    uint64_t roles[LINKAGE_USERS];         /* the roles that the user holds */
    uint64_t readers[LINKAGE_DATABASES];   /* the roles that may read the database */
    uint64_t forwards[LINKAGE_DATABASES];  /* the databases that it forwards to */
    uint64_t mandates[LINKAGE_DATABASES];  /* the roles with a mandate there */
    uint32_t users[LINKAGE_USERS];         /* the version of each user */
    uint32_t version;                      /* the system version */
    uint64_t opened;                       /* the open sessions */
    size_t counts[LINKAGE_ALL_SESSIONS];   /* how many flows a session has */
    size_t roots[LINKAGE_PLACES];          /* of each flow: its root, */
    uint64_t reaches[LINKAGE_PLACES];      /* the databases that it reaches, */
    uint32_t versions[LINKAGE_PLACES];     /* its version, */
    uint64_t denies[LINKAGE_PLACES];       /* its deny set, */
    uint64_t rolesets[LINKAGE_ROLE_SETS];  /* a role set for each flow up to itself */
};

/* The constraint of a flow. */
struct linkage_constraint {
    uint32_t version;
    uint64_t deny;
    uint64_t roles[LINKAGE_FLOWS]; /* for flows past its own 0 */
};

/* ------------------------------------------------- the archive's functions --- */

/* Each is lent those parts of an engine that it needs, and is given no NULL.  The
 * inline functions below do the lending; a caller whose arrays lie elsewhere calls
 * these. */

void linkage_lent_fresh(
    uint64_t roles[LINKAGE_USERS], uint64_t readers[LINKAGE_DATABASES],
    uint64_t forwards[LINKAGE_DATABASES], uint64_t mandates[LINKAGE_DATABASES],
    uint32_t users[LINKAGE_USERS], uint32_t *version, uint64_t *opened,
    size_t counts[LINKAGE_ALL_SESSIONS], size_t roots[LINKAGE_PLACES],
    uint64_t reaches[LINKAGE_PLACES], uint32_t versions[LINKAGE_PLACES],
    uint64_t denies[LINKAGE_PLACES], uint64_t rolesets[LINKAGE_ROLE_SETS]);

uint64_t linkage_lent_assign(
    uint64_t roles[LINKAGE_USERS], uint32_t users[LINKAGE_USERS], uint32_t *version,
    size_t user, size_t role, uint32_t *told);

uint64_t linkage_lent_withdraw(
    uint64_t roles[LINKAGE_USERS], uint32_t version,
    size_t user, size_t role, uint32_t *told);

uint64_t linkage_lent_permit(
    const uint64_t roles[LINKAGE_USERS], uint64_t readers[LINKAGE_DATABASES],
    uint32_t users[LINKAGE_USERS], uint32_t *version,
    size_t role, size_t database, uint32_t *told);

uint64_t linkage_lent_revoke(
    const uint64_t roles[LINKAGE_USERS], uint64_t readers[LINKAGE_DATABASES],
    const uint64_t mandates[LINKAGE_DATABASES], uint32_t users[LINKAGE_USERS],
    uint32_t *version, size_t role, size_t database, uint32_t *told);

uint64_t linkage_lent_forward(
    uint64_t forwards[LINKAGE_DATABASES], uint32_t version,
    const size_t counts[LINKAGE_ALL_SESSIONS],
    size_t from, size_t to, uint32_t *told);

uint64_t linkage_lent_mandate(
    const uint64_t readers[LINKAGE_DATABASES], uint64_t mandates[LINKAGE_DATABASES],
    uint32_t version, size_t role, size_t database, uint32_t *told);

uint64_t linkage_lent_open(
    uint32_t version, uint64_t *opened, size_t product, size_t session, uint32_t *told);

uint64_t linkage_lent_conflicting(
    const uint64_t roles[LINKAGE_USERS], const uint64_t readers[LINKAGE_DATABASES],
    const uint64_t forwards[LINKAGE_DATABASES], uint64_t opened,
    const size_t counts[LINKAGE_ALL_SESSIONS], const uint64_t reaches[LINKAGE_PLACES],
    size_t product, size_t session, size_t root, uint64_t *found);

uint64_t linkage_lent_add(
    const uint64_t roles[LINKAGE_USERS], const uint64_t readers[LINKAGE_DATABASES],
    const uint64_t forwards[LINKAGE_DATABASES], uint32_t version, uint64_t opened,
    size_t counts[LINKAGE_ALL_SESSIONS], size_t roots[LINKAGE_PLACES],
    uint64_t reaches[LINKAGE_PLACES], uint32_t versions[LINKAGE_PLACES],
    uint64_t denies[LINKAGE_PLACES], uint64_t rolesets[LINKAGE_ROLE_SETS],
    size_t product, size_t session, size_t root, uint64_t chosen,
    size_t *flow, uint32_t *size, uint32_t *told);

uint64_t linkage_lent_show(
    uint64_t opened, const size_t counts[LINKAGE_ALL_SESSIONS],
    const uint32_t versions[LINKAGE_PLACES], const uint64_t denies[LINKAGE_PLACES],
    const uint64_t rolesets[LINKAGE_ROLE_SETS],
    size_t product, size_t session, size_t flow,
    uint32_t *told, uint64_t *deny, uint64_t sets[LINKAGE_FLOWS]);

uint64_t linkage_lent_read(
    const uint64_t roles[LINKAGE_USERS], const uint64_t readers[LINKAGE_DATABASES],
    const uint64_t mandates[LINKAGE_DATABASES], const uint32_t users[LINKAGE_USERS],
    uint64_t opened, const size_t counts[LINKAGE_ALL_SESSIONS],
    const uint64_t reaches[LINKAGE_PLACES], const uint32_t versions[LINKAGE_PLACES],
    const uint64_t denies[LINKAGE_PLACES], const uint64_t rolesets[LINKAGE_ROLE_SETS],
    size_t user, size_t number, size_t flow, size_t database);

/* The number of a product's session among those of both, by which
 * linkage_lent_read names it; past them all where there is no such session. */
size_t linkage_session(size_t product, size_t session);

size_t linkage_lent_frame(
    uint64_t roles[LINKAGE_USERS], uint64_t readers[LINKAGE_DATABASES],
    uint64_t forwards[LINKAGE_DATABASES], uint64_t mandates[LINKAGE_DATABASES],
    uint32_t users[LINKAGE_USERS], uint32_t *version, uint64_t *opened,
    size_t counts[LINKAGE_ALL_SESSIONS], size_t roots[LINKAGE_PLACES],
    uint64_t reaches[LINKAGE_PLACES], uint32_t versions[LINKAGE_PLACES],
    uint64_t denies[LINKAGE_PLACES], uint64_t rolesets[LINKAGE_ROLE_SETS],
    const void *line, size_t length, void *out, size_t room);

size_t linkage_lent_feed(
    uint64_t roles[LINKAGE_USERS], uint64_t readers[LINKAGE_DATABASES],
    uint64_t forwards[LINKAGE_DATABASES], uint64_t mandates[LINKAGE_DATABASES],
    uint32_t users[LINKAGE_USERS], uint32_t *version, uint64_t *opened,
    size_t counts[LINKAGE_ALL_SESSIONS], size_t roots[LINKAGE_PLACES],
    uint64_t reaches[LINKAGE_PLACES], uint32_t versions[LINKAGE_PLACES],
    uint64_t denies[LINKAGE_PLACES], uint64_t rolesets[LINKAGE_ROLE_SETS],
    const void *input, size_t length, void *out, size_t room, size_t *consumed);

/* What has to be kept of buffer[from .. to) after linkage_feed is moved to the
 * start of the buffer of that length: all of it, or the first LINKAGE_KEPT
 * bytes at most of a line that has no line feed yet; no frame is as long, so
 * the line is malformed with the bytes that are dropped and without.  Gives how
 * many bytes that is: read on behind them.  Places past the length count as it. */
size_t linkage_keep(void *buffer, size_t length, size_t from, size_t to);

/* At the end of the input, with so many bytes left of a line without its line
 * feed: its answer line at the start of `out`, 01 where any are left, and how
 * long that is.  0 where nothing is left, or `out` has not the room of 3. */
size_t linkage_finish(size_t left, void *out, size_t room);

#ifdef __cplusplus
}
#endif

/* --------------------------------------------------------- a fresh engine --- */

/* Empty tables, no open session, every version 0. */
static inline void linkage_fresh(struct linkage_engine *e)
{
    linkage_lent_fresh(e->roles, e->readers, e->forwards, e->mandates, e->users, &e->version,
                       &e->opened, e->counts, e->roots, e->reaches, e->versions, e->denies,
                       e->rolesets);
}

/* ------------------------------------------- changes of the tables, openings --- */

/* The end of a call that tells a version: that goes where the caller wants it. */
static inline int linkage_tell(uint64_t number, uint32_t version, uint32_t *told)
{
    if (number == 0 && told)
        *told = version;
    return (int)number;
}

/* In all of these the answer, *told, is the system version after the call. */

/* 01: the user gets the role, and a new version.  Refused with 2 3 9. */
static inline int linkage_assign(struct linkage_engine *e, size_t user, size_t role,
                                 uint32_t *told)
{
    uint32_t v = 0;
    uint64_t n = linkage_lent_assign(e->roles, e->users, &e->version, user, role, &v);
    return linkage_tell(n, v, told);
}

/* 02: the user loses the role.  Refused with 2 4. */
static inline int linkage_withdraw(struct linkage_engine *e, size_t user, size_t role,
                                   uint32_t *told)
{
    uint32_t v = 0;
    uint64_t n = linkage_lent_withdraw(e->roles, e->version, user, role, &v);
    return linkage_tell(n, v, told);
}

/* 03: the role may read the database; who holds it gets a new version.  Refused
 * with 2 3 9. */
static inline int linkage_permit(struct linkage_engine *e, size_t role, size_t database,
                                 uint32_t *told)
{
    uint32_t v = 0;
    uint64_t n = linkage_lent_permit(e->roles, e->readers, e->users, &e->version, role, database,
                                     &v);
    return linkage_tell(n, v, told);
}

/* 04: the role may not read the database any more; new versions as for 03.
 * Refused with 2 4 15 9. */
static inline int linkage_revoke(struct linkage_engine *e, size_t role, size_t database,
                                 uint32_t *told)
{
    uint32_t v = 0;
    uint64_t n = linkage_lent_revoke(e->roles, e->readers, e->mandates, e->users, &e->version,
                                     role, database, &v);
    return linkage_tell(n, v, told);
}

/* 05: the first database forwards to the second.  Refused with 2 5 3. */
static inline int linkage_forward(struct linkage_engine *e, size_t from, size_t to,
                                  uint32_t *told)
{
    uint32_t v = 0;
    uint64_t n = linkage_lent_forward(e->forwards, e->version, e->counts, from, to, &v);
    return linkage_tell(n, v, told);
}

/* 10: a mandate is put on the permission.  Nothing lifts it.  Refused with
 * 2 3 4. */
static inline int linkage_mandate(struct linkage_engine *e, size_t role, size_t database,
                                  uint32_t *told)
{
    uint32_t v = 0;
    uint64_t n = linkage_lent_mandate(e->readers, e->mandates, e->version, role, database, &v);
    return linkage_tell(n, v, told);
}

/* 06 and 0b: the session is opened.  Refused with 2 3. */
static inline int linkage_open(struct linkage_engine *e, size_t product, size_t session,
                               uint32_t *told)
{
    uint32_t v = 0;
    uint64_t n = linkage_lent_open(e->version, &e->opened, product, session, &v);
    return linkage_tell(n, v, told);
}

/* ------------------------------------------------------- flows and reads --- */

/* A product is LINKAGE_SERVER or LINKAGE_TERM_BANK; for any other number the
 * refusal is 2. */

/* 07 and 0c: the conflicting roles, *found, with a flow of this root counted in
 * but not added.  Refused with 2 6 7. */
static inline int linkage_conflicting(const struct linkage_engine *e, size_t product,
                                      size_t session, size_t root, uint64_t *found)
{
    uint64_t roles = 0;
    uint64_t n = linkage_lent_conflicting(e->roles, e->readers, e->forwards, e->opened, e->counts,
                                          e->reaches, product, session, root, &roles);
    if (n == 0 && found)
        *found = roles;
    return (int)n;
}

/* 08 and 0d: a flow of this root is added, with the chosen roles denied, each of
 * which has to be conflicting.  The answer is the flow's number, how many
 * databases it reaches, and its version.  Refused with 2 6 7 8. */
static inline int linkage_add(struct linkage_engine *e, size_t product, size_t session,
                              size_t root, uint64_t chosen, size_t *flow, uint32_t *size,
                              uint32_t *told)
{
    size_t f = 0;
    uint32_t s = 0, v = 0;
    uint64_t n = linkage_lent_add(e->roles, e->readers, e->forwards, e->version, e->opened,
                                  e->counts, e->roots, e->reaches, e->versions, e->denies,
                                  e->rolesets, product, session, root, chosen, &f, &s, &v);
    if (n == 0 && flow)
        *flow = f;
    if (n == 0 && size)
        *size = s;
    return linkage_tell(n, v, told);
}

/* 09 and 0e: LINKAGE_GRANTED where the user may read the flow at the database
 * now.  Any other answer means: don't show it.  Ask for each read, since the
 * tables may have changed.  Refused with 2 6 10 11 12 13 14. */
static inline int linkage_read(const struct linkage_engine *e, size_t product, size_t user,
                               size_t session, size_t flow, size_t database)
{
    return (int)linkage_lent_read(e->roles, e->readers, e->mandates, e->users, e->opened,
                                  e->counts, e->reaches, e->versions, e->denies, e->rolesets,
                                  user, linkage_session(product, session), flow, database);
}

/* 0a and 0f: the constraint of the flow.  Refused with 2 6 10. */
static inline int linkage_show(const struct linkage_engine *e, size_t product, size_t session,
                               size_t flow, struct linkage_constraint *shown)
{
    struct linkage_constraint c = { 0, 0, { 0 } };
    uint64_t n = linkage_lent_show(e->opened, e->counts, e->versions, e->denies, e->rolesets,
                                   product, session, flow, &c.version, &c.deny, c.roles);
    if (n == 0 && shown)
        *shown = c;
    return (int)n;
}

/* ----------------------------------------------------------------- frames --- */

/* One frame, a line without its line feed: it is carried out, and its answer
 * line stands at the start of `out`, line feed included.  Gives how long that
 * is.  What is no frame is answered 01, whatever bytes it has.  With room for
 * less than LINKAGE_LONGEST nothing is done, and it gives 0. */
static inline size_t linkage_frame(struct linkage_engine *e, const void *line, size_t length,
                                   void *out, size_t room)
{
    return linkage_lent_frame(e->roles, e->readers, e->forwards, e->mandates, e->users,
                              &e->version, &e->opened, e->counts, e->roots, e->reaches,
                              e->versions, e->denies, e->rolesets, line, length, out, room);
}

/* A piece of a stream: its whole lines are carried out, as far as there is room
 * for their answer lines, which stand one after the other in `out`.  Gives how
 * many bytes these are; *consumed is how many bytes of the input were taken.
 * With room for LINKAGE_LONGEST it takes a line if there is a whole one, so
 * feed until nothing is taken, then linkage_keep, and read on; after the last
 * piece linkage_finish.  library/drive.c has the loop. */
static inline size_t linkage_feed(struct linkage_engine *e, const void *input, size_t length,
                                  void *out, size_t room, size_t *consumed)
{
    return linkage_lent_feed(e->roles, e->readers, e->forwards, e->mandates, e->users,
                             &e->version, &e->opened, e->counts, e->roots, e->reaches,
                             e->versions, e->denies, e->rolesets, input, length, out, room,
                             consumed);
}

/* ------------------------------------------------------------------ words --- */

/* What an answer's number means, for people. */
static inline const char *linkage_words(int number)
{
    static const char *const words[] = {
        "accepted",
        "malformed",
        "a number above its limit",
        "there already",
        "not there",
        "a flow has been added in either product, so forwarding is closed",
        "the session isn't open",
        "the session has eight flows",
        "a chosen role isn't conflicting",
        "the versions are used up",
        "no such flow",
        "the database isn't in the flow's reach",
        "no role of the user may read the database",
        "the user's rights have changed since the flow was added",
        "linkable: the user could put two flows side by side",
        "a mandate is on the permission, so it stays"
    };
    return number < 0 || number > LINKAGE_MANDATED ? "no such number" : words[number];
}

#endif
