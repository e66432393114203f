/*
 * The linkage engine of document 01 with requests K1, K3 and K4: reference
 * model and baseline of speed.
 *
 * Frames on standard input, one a line; one answer line each on standard
 * output.  Sentences in quotation marks are document 01's, or K1's, K3's or
 * K4's where that is said.
 *
 *     cc -O2 -o model model.c         (C11)
 *     model < list
 *     model 4294967294 < list         the system version starts there, not at 0:
 *                                     no list is long enough to reach the limit
 *
 * Role sets and sets of databases are masks of 64 bits, number 0 the lowest.
 * A read takes the same steps whatever the tables and the sessions hold.
 */

#include <errno.h>
#include <stdbool.h>
#include <stddef.h>
#include <stdint.h>
#include <stdio.h>
#include <string.h>
#include <unistd.h>

/* "Users 0-255, roles 0-63, databases 0-63, sessions 0-15, at most 8 flows a
 * session numbered 0-7 in order of addition, versions 0-65535." */
enum { USERS = 256, ROLES = 64, DATABASES = 64, SESSIONS = 16, FLOWS = 8 };

/* K4: "Versions become 32 bits, eight digits in every answer, the limit
 * 4294967295."  The limit is more than an int holds, so it is no enum. */
static const uint32_t LAST_VERSION = 4294967295u;
enum { VERSION_DIGITS = 8 };

/* K1: "Two products on one directory. [...] Each has sixteen sessions of its
 * own."  A product is named by the place of its session 0; session s of it has
 * the place product + s. */
enum { SERVER = 0, BANK = SESSIONS, PLACES = BANK + SESSIONS };

typedef uint64_t set;

static inline set  one(unsigned n)          { return (set)1 << n; }
static inline bool has(set s, unsigned n)   { return s >> n & 1; }
static inline bool meet(set a, set b)       { return (a & b) != 0; }
static inline unsigned lowest(set s)        { return (unsigned)__builtin_ctzll(s); }

/* A flow and its constraint, "kept unchanged from then on".  The root is in
 * the reach and is not asked for again. */
struct flow {
    set reach;              /* root and all that forwarding leads to from it */
    set deny;
    set roles[FLOWS];       /* one role set for each flow up to itself, then empty */
    uint32_t version;
};

/* "A fresh engine has 256 user versions of zero, system version 0, empty
 * tables and no open session." */
static struct {
    set holds[USERS];           /* the roles that the user holds */
    set readers[DATABASES];     /* the roles that may read the database */
    set mandated[DATABASES];    /* K3: those of them that have a mandate there */
    set forwards[DATABASES];    /* the databases that it forwards to */
    uint32_t version[USERS];
    uint32_t system;
    bool flow_added;            /* "some flow has been added in any session";
                                 * K1: "the first flow of either product" */
    bool open[PLACES];
    unsigned count[PLACES];     /* flows of the session */
    struct flow flow[PLACES][FLOWS];
} engine;

/* ------------------------------------------------- tables and versions --- */

/* Every call returns 0 (accepted) or the number of the first row it meets;
 * the checks stand in the order of the rows. */

/* 01: "Assigning a role: a new version for that user."  K4: "9 is now given at
 * the new limit." */
static unsigned assign_role(unsigned user, unsigned role)
{
    if (role >= ROLES)                      return 2;
    if (has(engine.holds[user], role))      return 3;
    if (engine.system == LAST_VERSION)      return 9;
    engine.holds[user] |= one(role);
    engine.version[user] = ++engine.system;
    return 0;
}

/* 02: "Withdrawing a role: no new version." */
static unsigned withdraw_role(unsigned user, unsigned role)
{
    if (role >= ROLES)                      return 2;
    if (!has(engine.holds[user], role))     return 4;
    engine.holds[user] &= ~one(role);
    return 0;
}

static bool anybody_holds(unsigned role)
{
    set all = 0;
    for (unsigned u = 0; u < USERS; u++)
        all |= engine.holds[u];
    return has(all, role);
}

/* "Permitting or revoking a database for a role: a new version for all users
 * who hold the role; if nobody does, none." */
static void new_version_for_holders(unsigned role)
{
    uint32_t v = ++engine.system;
    for (unsigned u = 0; u < USERS; u++)
        engine.version[u] = has(engine.holds[u], role) ? v : engine.version[u];
}

/* 03 */
static unsigned permit_database(unsigned role, unsigned db)
{
    if (role >= ROLES || db >= DATABASES)   return 2;
    if (has(engine.readers[db], role))      return 3;
    bool due = anybody_holds(role);
    if (due && engine.system == LAST_VERSION) return 9;
    engine.readers[db] |= one(role);
    if (due)
        new_version_for_holders(role);
    return 0;
}

/* 04: K3's row 15, "when a permission with a mandate on it is to be revoked",
 * stands "after 4 and before 9". */
static unsigned revoke_database(unsigned role, unsigned db)
{
    if (role >= ROLES || db >= DATABASES)   return 2;
    if (!has(engine.readers[db], role))     return 4;
    if (has(engine.mandated[db], role))     return 15;
    bool due = anybody_holds(role);
    if (due && engine.system == LAST_VERSION) return 9;
    engine.readers[db] &= ~one(role);
    if (due)
        new_version_for_holders(role);
    return 0;
}

/* 05: row 3 stands "after 5" here.  "A database forwarding to itself is
 * allowed." */
static unsigned add_forwarding(unsigned from, unsigned to)
{
    if (from >= DATABASES || to >= DATABASES) return 2;
    if (engine.flow_added)                  return 5;
    if (has(engine.forwards[from], to))     return 3;
    engine.forwards[from] |= one(to);
    return 0;
}

/* 06 and 0b: K1's kinds "0b to 0f do for the term bank what 06 to 0a do for
 * the server, field by field". */
static unsigned open_session(unsigned product, unsigned s)
{
    if (s >= SESSIONS)                      return 2;
    if (engine.open[product + s])           return 3;
    engine.open[product + s] = true;
    return 0;
}

/* 10: K3: "a pair without permission gives 4, a mandated one 3.  [...] A mandate
 * gives no new version".  No call lifts one, and row 15 keeps the permission: a
 * role with a mandate at a database may read there. */
static unsigned put_mandate(unsigned role, unsigned db)
{
    if (role >= ROLES || db >= DATABASES)   return 2;
    if (has(engine.mandated[db], role))     return 3;
    if (!has(engine.readers[db], role))     return 4;
    engine.mandated[db] |= one(role);
    return 0;
}

/* ------------------------------------------ flows, conflicts, constraints --- */

/* "The reach of a flow is its root and every database that forwarding leads
 * to from it, in one or more steps." */
static set reach_of(unsigned root)
{
    set reach = one(root), todo = reach;
    while (todo) {
        set next = engine.forwards[lowest(todo)] & ~reach;
        todo &= todo - 1;
        todo |= next;
        reach |= next;
    }
    return reach;
}

/* The roles that may read a database in the reach, by the table of today. */
static set readers_of(set reach)
{
    set roles = 0;
    for (; reach; reach &= reach - 1)
        roles |= engine.readers[lowest(reach)];
    return roles;
}

/* "A role c is conflicting for a session if some user holds c and may
 * statically read at least two of its flows. The search through flows ends at
 * the second one found."  readers[i] is readers_of the reach of flow i. */
static set conflicting(const set *readers, unsigned flows)
{
    set roles = 0;
    for (unsigned u = 0; u < USERS; u++) {
        set held = engine.holds[u];
        if (!(held & ~roles))
            continue;               /* no role that is not found already */
        unsigned readable = 0;
        for (unsigned i = 0; i < flows; i++)
            if (meet(held, readers[i]) && ++readable == 2) {
                roles |= held;
                break;
            }
    }
    return roles;
}

/* "Role o overlaps role r if some user holds both; r overlaps itself if
 * anybody holds it. Then r is a parent of o."  The parents of the roles in
 * the deny set: a denied role that nobody holds adds none, not even itself. */
static set parents_of(set deny)
{
    set roles = 0;
    for (unsigned u = 0; u < USERS; u++)
        if (meet(engine.holds[u], deny))
            roles |= engine.holds[u];
    return roles;
}

/* The readers of each flow of the session at that place, the flow of that root
 * last. */
static void readers_with(unsigned place, set root_reach, set readers[FLOWS])
{
    unsigned n = engine.count[place];
    for (unsigned i = 0; i < n; i++)
        readers[i] = readers_of(engine.flow[place][i].reach);
    readers[n] = readers_of(root_reach);
}

/* 07 and 0c: "conflicting roles, with a flow of root dd counted in but not
 * added" */
static unsigned ask_conflicting(unsigned product, unsigned s, unsigned root, set *answer)
{
    if (s >= SESSIONS || root >= DATABASES) return 2;
    unsigned place = product + s;
    if (!engine.open[place])                return 6;
    if (engine.count[place] == FLOWS)       return 7;
    set readers[FLOWS];
    readers_with(place, reach_of(root), readers);
    *answer = conflicting(readers, engine.count[place] + 1);
    return 0;
}

/* 08 and 0d: "Adding a flow brings a root and a chosen set of roles, each
 * conflicting for the session with the new flow counted in." */
static unsigned add_flow(unsigned product, unsigned s, unsigned root, set chosen,
                         const struct flow **added)
{
    if (s >= SESSIONS || root >= DATABASES) return 2;
    unsigned place = product + s;
    if (!engine.open[place])                return 6;
    if (engine.count[place] == FLOWS)       return 7;
    unsigned n = engine.count[place];
    set reach = reach_of(root);
    set readers[FLOWS];
    readers_with(place, reach, readers);
    if (chosen & ~conflicting(readers, n + 1)) return 8;

    /* "The flow's deny set is the previous flow's deny set (empty for flow 0)
     * joined with the chosen set.  Its constraint [...] is its version (the
     * system version then), its deny set, and one role set for each flow up to
     * itself: the roles that may, at this addition, read a database in that
     * flow's reach and are a parent of some role in the deny set." */
    struct flow *f = &engine.flow[place][n];
    f->reach = reach;
    f->deny = (n ? engine.flow[place][n - 1].deny : 0) | chosen;
    f->version = engine.system;
    set parents = parents_of(f->deny);
    for (unsigned i = 0; i <= n; i++)
        f->roles[i] = readers[i] & parents;
    engine.count[place] = n + 1;
    engine.flow_added = true;
    *added = f;
    return 0;
}

/* 0a and 0f */
static unsigned show_constraint(unsigned product, unsigned s, unsigned f,
                                const struct flow **shown)
{
    if (s >= SESSIONS || f >= FLOWS)        return 2;
    unsigned place = product + s;
    if (!engine.open[place])                return 6;
    if (f >= engine.count[place])           return 10;
    *shown = &engine.flow[place][f];
    return 0;
}

/* ---------------------------------------------------- the verdict on a read --- */

/* 09 and 0e: bit n of rows is set when the read meets row n; the lowest one is
 * the answer.  Whether the "roles meet at least two of f's role sets" is
 * counted over all eight; those past the flow's own number are empty.
 *
 * K3: "A read is under a mandate if the user holds a role with a mandate at the
 * database read"; it "passes checks 13 and 14". */
enum { GRANTED = 16 };      /* above all rows */

static inline unsigned read_flow(unsigned product, unsigned user, unsigned s, unsigned f,
                                 unsigned db)
{
    unsigned place = product + s % SESSIONS;
    const struct flow *flow = &engine.flow[place][f % FLOWS];
    set held = engine.holds[user];
    const set *r = flow->roles;
    int met = meet(held, r[0]) + meet(held, r[1]) + meet(held, r[2]) + meet(held, r[3])
            + meet(held, r[4]) + meet(held, r[5]) + meet(held, r[6]) + meet(held, r[7]);

    bool above     = (s >= SESSIONS) | (f >= FLOWS) | (db >= DATABASES);
    bool closed    = !engine.open[place];
    bool no_flow   = f >= engine.count[place];
    bool unreached = !has(flow->reach, db % DATABASES);
    bool unread    = !meet(held, engine.readers[db % DATABASES]);
    bool duty      = meet(held, engine.mandated[db % DATABASES]);
    bool changed   = !duty & (engine.version[user] > flow->version);
    bool linkable  = !duty & meet(held, flow->deny) & (met >= 2);

    unsigned rows = (unsigned)above << 2     | (unsigned)closed << 6
                  | (unsigned)no_flow << 10  | (unsigned)unreached << 11
                  | (unsigned)unread << 12   | (unsigned)changed << 13
                  | (unsigned)linkable << 14 | 1u << GRANTED;
    return (unsigned)__builtin_ctz(rows);
}

/* --------------------------------------------------------------- answers --- */

enum {
    CHUNK = 65536,          /* bytes asked for at a time */
    SET_DIGITS = ROLES / 4,
    /* The constraint of a last flow and its line feed: 155 bytes. */
    LONGEST_ANSWER = 2 + VERSION_DIGITS + SET_DIGITS + FLOWS * SET_DIGITS + 1
};

static unsigned char out[CHUNK + LONGEST_ANSWER];
static unsigned char *put = out;

/* The answer to a read by what read_flow returns; four bytes, three are used. */
static const char verdict[GRANTED + 1][4] = {
    "", "01\n", "02\n", "03\n", "04\n", "05\n", "06\n", "07\n", "08\n",
    "09\n", "0a\n", "0b\n", "0c\n", "0d\n", "0e\n", "0f\n", "00\n"
};

static void write_out(void)
{
    const unsigned char *p = out;
    while (p < put) {
        ssize_t n = write(1, p, (size_t)(put - p));
        if (n < 0 && errno == EINTR)
            continue;
        if (n <= 0)
            _exit(1);
        p += n;
    }
    put = out;
}

static inline void put_verdict(unsigned n)
{
    if (put >= out + CHUNK)
        write_out();
    memcpy(put, verdict[n], 4);
    put += 3;
}

static inline void put_number(set value, unsigned digits)
{
    for (unsigned i = digits; i-- > 0; value >>= 4)
        put[i] = (unsigned char)"0123456789abcdef"[value & 15];
    put += digits;
}

/* The two digits that begin every answer; the caller ends the line. */
static inline void begin(unsigned number)
{
    if (put >= out + CHUNK)
        write_out();
    put_number(number, 2);
}

static inline void end_line(void)
{
    *put++ = '\n';
}

/* ---------------------------------------------------------------- frames --- */

/* pair[] over two bytes as they lie in the line: 256 + the value for two
 * digits 0-9 a-f, 0 for all else. */
enum { DIGITS = 256 };
static uint16_t pair[65536];

static inline unsigned take(const unsigned char *p)
{
    uint16_t two;
    memcpy(&two, p, 2);
    return pair[two];
}

static void fill_pairs(void)
{
    static const char digit[] = "0123456789abcdef";
    for (unsigned v = 0; v < 256; v++) {
        unsigned char p[2] = { (unsigned char)digit[v >> 4], (unsigned char)digit[v & 15] };
        uint16_t two;
        memcpy(&two, p, 2);
        pair[two] = (uint16_t)(DIGITS + v);
    }
}

/* Digits in a line of each kind, the kind's own two among them.  Kinds 06 to 0a
 * are the server's; the term bank's like of each is the one five after it.
 * Kind 10 is no product's. */
enum { KINDS = 16, LIKE = 5, LONGEST = 22 };
static const unsigned char length[KINDS + 1] = {
    0, 6, 6, 6, 6, 6, 4, 6, 22, 10, 6, 4, 6, 22, 10, 6, 6
};

/* 01 to 06, 0b and 10: "the system version"; K4: "eight digits in every
 * answer" */
static void answer_change(unsigned number)
{
    begin(number);
    if (number == 0)
        put_number(engine.system, VERSION_DIGITS);
    end_line();
}

/* 07 and 0c: "the role set" */
static void answer_query(unsigned product, unsigned s, unsigned root)
{
    set roles;
    unsigned number = ask_conflicting(product, s, root, &roles);
    begin(number);
    if (number == 0)
        put_number(roles, SET_DIGITS);
    end_line();
}

/* 08 and 0d: "flow number, count of databases in the reach (1 to 64) in two
 * digits each, version" */
static void answer_add(unsigned product, unsigned s, unsigned root, set chosen)
{
    const struct flow *f;
    unsigned number = add_flow(product, s, root, chosen, &f);
    begin(number);
    if (number == 0) {
        put_number((set)(f - engine.flow[product + s]), 2);
        put_number((set)__builtin_popcountll(f->reach), 2);
        put_number(f->version, VERSION_DIGITS);
    }
    end_line();
}

/* 0a and 0f: "version, deny set, then the role sets from flow 0 on" */
static void answer_show(unsigned product, unsigned s, unsigned f)
{
    const struct flow *shown;
    unsigned number = show_constraint(product, s, f, &shown);
    begin(number);
    if (number == 0) {
        put_number(shown->version, VERSION_DIGITS);
        put_number(shown->deny, SET_DIGITS);
        for (unsigned i = 0; i <= f; i++)
            put_number(shown->roles[i], SET_DIGITS);
    }
    end_line();
}

/* A line of the right length for its kind; x[] are its fields. */
static void call(unsigned kind, const unsigned char *x)
{
    unsigned product = kind > 10 && kind <= 10 + LIKE ? BANK : SERVER;
    switch (product == BANK ? kind - LIKE : kind) {
    case 1: answer_change(assign_role(x[0], x[1]));         break;
    case 2: answer_change(withdraw_role(x[0], x[1]));       break;
    case 3: answer_change(permit_database(x[0], x[1]));     break;
    case 4: answer_change(revoke_database(x[0], x[1]));     break;
    case 5: answer_change(add_forwarding(x[0], x[1]));      break;
    case 6: answer_change(open_session(product, x[0]));     break;
    case 7: answer_query(product, x[0], x[1]);              break;
    case 8: {
        set chosen = 0;
        for (unsigned i = 2; i < 10; i++)
            chosen = chosen << 8 | x[i];
        answer_add(product, x[0], x[1], chosen);
        break;
    }
    case 9: put_verdict(read_flow(product, x[0], x[1], x[2], x[3])); break;
    case 10: answer_show(product, x[0], x[1]);              break;
    case 16: answer_change(put_mandate(x[0], x[1]));        break;
    }
}

/* Answers the frame at p and returns the byte after its line feed; 0 if there
 * is no frame at p: then the line is malformed or not whole. */
static const unsigned char *frame(const unsigned char *p, const unsigned char *stop)
{
    unsigned char field[LONGEST / 2];
    if (stop - p < 2)
        return 0;
    unsigned kind = take(p);
    if (kind < DIGITS + 1 || kind > DIGITS + KINDS)
        return 0;
    kind -= DIGITS;
    unsigned n = length[kind];
    if (stop - p <= (ptrdiff_t)n || p[n] != '\n')
        return 0;
    unsigned valid = DIGITS;
    for (unsigned i = 2; i < n; i += 2) {
        unsigned v = take(p + i);
        valid &= v;
        field[i / 2 - 1] = (unsigned char)v;
    }
    if (!valid)
        return 0;
    call(kind, field);
    return p + n + 1;
}

/* Answers all whole lines from p on; returns the start of the last line, which
 * has no line feed yet. */
static const unsigned char *lines(const unsigned char *p, const unsigned char *stop)
{
    while (p < stop) {
        /* The reads first: eleven bytes, 09 or 0e, uu ss ff dd and the line
         * feed.  No branch tells the products apart: they come in any order. */
        if (stop - p > 10 && p[10] == '\n') {
            unsigned kind = take(p);
            bool bank = kind == DIGITS + 9 + LIKE;
            unsigned u = take(p + 2), s = take(p + 4), f = take(p + 6), d = take(p + 8);
            if (((kind == DIGITS + 9) | bank) & (u & s & f & d) / DIGITS) {
                put_verdict(read_flow(bank * BANK, u - DIGITS, s - DIGITS, f - DIGITS, d - DIGITS));
                p += 11;
                continue;
            }
        }
        const unsigned char *next = frame(p, stop);
        if (!next) {
            /* "unknown kind, wrong length, another byte than 0-9 a-f" */
            next = memchr(p, '\n', (size_t)(stop - p));
            if (!next)
                break;
            next++;
            put_verdict(1);
        }
        p = next;
    }
    return p;
}

/* The system version to start with, in decimal; false if it is none. */
static bool start_at(const char *digits)
{
    uint64_t v = 0;
    const char *p = digits;
    for (; *p >= '0' && *p <= '9' && v <= LAST_VERSION; p++)
        v = v * 10 + (unsigned)(*p - '0');
    if (p == digits || *p || v > LAST_VERSION)
        return false;
    engine.system = (uint32_t)v;
    return true;
}

int main(int argc, char **argv)
{
    /* The piece of a line that a chunk ends with is put before the next chunk.
     * A piece longer than any frame is dropped: its line is malformed. */
    static unsigned char room[LONGEST + CHUNK];
    unsigned char *const chunk = room + LONGEST;
    size_t piece = 0;
    bool overlong = false;

    if (argc > 2 || (argc == 2 && !start_at(argv[1]))) {
        fputs("usage: model [VERSION]   to start with, in decimal\n", stderr);
        return 2;
    }
    fill_pairs();
    for (;;) {
        ssize_t n = read(0, chunk, CHUNK);
        if (n < 0 && errno == EINTR)
            continue;
        if (n < 0)
            return 1;
        if (n == 0)
            break;
        const unsigned char *p = chunk - piece, *stop = chunk + n;
        if (overlong) {
            p = memchr(chunk, '\n', (size_t)n);
            if (!p)
                continue;
            p++;
            put_verdict(1);
            overlong = false;
        }
        p = lines(p, stop);
        piece = (size_t)(stop - p);
        if (piece > LONGEST) {
            overlong = true;
            piece = 0;
        } else {
            memmove(chunk - piece, p, piece);
        }
        write_out();
    }
    if (piece || overlong)
        put_verdict(1);     /* "no line feed at the end of input" */
    write_out();
    return 0;
}
