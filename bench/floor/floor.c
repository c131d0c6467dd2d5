/* The floor of the figures: the statements that a careful C programmer would run for a command over these
 * tables, in one transaction, over the stock library, and nothing else. No rule is looked at, and no JSON is read.
 *
 * It is frozen: it doesn't follow the program. A row is read once and written once, a row that is at hand isn't
 * looked up again, and nothing is removed that can't be there. Why each statement is needed stands beside it. What the
 * tables and their texts are it takes from the program (statements.py), but for two of its own.
 *
 * usage: floor DB DOMAINS COMMANDS [each|counted]    (DB is a path where nothing is yet, or :memory:)
 *
 * Fills a database with so many domains of the registrar 1 by creates, and then times so many of each
 * command, each in a transaction of its own. A file is in WAL mode with full synchronisation. With 'each' it
 * prints besides, of the creates alone, what each statement took and how often one create runs it. With 'counted',
 * under callgrind, each statement of the commands leaves a file of what it took, under its name (instructions.py).
 */
#include <sqlite3.h>
#include <stdarg.h>
#include <stdint.h>
#include <stdio.h>
#include <stdlib.h>
#include <string.h>
#include <time.h>

#if __has_include(<valgrind/callgrind.h>)
#include <valgrind/callgrind.h>
#else
#define CALLGRIND_ZERO_STATS
#define CALLGRIND_DUMP_STATS_AT(name)
#endif

#include "statements.h"

/* What a command is about. */
struct subject {
    int64_t domain;    /* the domain's number, which is that of its row */
    int64_t registrar; /* who sends it */
    int64_t clock;
};

/* Every command begins a transaction, reads the clock and the terms, looks whether anything is due, and reads
 * the account of its caller: five. */
#define HEAD BEGIN, META_ALL, CONTACT_UNTIL_DUE, DOMAIN_UNTIL_DUE, ACCOUNT_BY_ID
/* It counts itself on the account, with whatever else the account has from it; the clock moves; it is kept: three. */
#define TAIL ACCOUNT_PUT, META_PUT, COMMIT

/* 12: the registrant has to be there, and the name not; the domain, and the line of its charge. */
static const enum statement CREATE[] = {HEAD, CONTACT_BY_NAME, DOMAIN_BY_NAME, DOMAIN_APPEND, LINE_APPEND, TAIL};
/* 10: two names, one of which is there. */
static const enum statement CHECK[] = {HEAD, DOMAIN_BY_NAME, DOMAIN_BY_NAME, TAIL};
/* 13: the domain with the name of its registrant, its links, its last transfer, the lines that tell its graces, and
 * the hosts below it. */
static const enum statement INFO[] = {
    HEAD, DOMAIN_AND_REGISTRANT, LINK_BY_DOMAIN, TRANSFER_BY_DOMAIN, LINE_BY_OBJECT, HOST_BY_ABOVE, TAIL};
/* 14: the domain, whether a transfer pends, and its lines; the domain anew, when its links are looked at again, and
 * the line of the charge. */
static const enum statement RENEW[] = {
    HEAD, DOMAIN_BY_NAME, TRANSFER_BY_DOMAIN, LINE_BY_OBJECT, DOMAIN_PUT, LINK_MOVE, LINE_APPEND, TAIL};
/* 8. */
static const enum statement BALANCE[] = {HEAD, TAIL};
/* 20: the domain, whether a transfer pends, and its lines; the domain anew, when its links are looked at again, this
 * transfer for the last one, and the line of the charge; the sponsor's account, whether the message is there, the
 * message, and how many wait now. */
static const enum statement REQUEST[] = {
    HEAD, DOMAIN_BY_NAME, TRANSFER_BY_DOMAIN, LINE_BY_OBJECT, DOMAIN_PUT, LINK_MOVE, TRANSFER_REMOVE_DOMAIN,
    TRANSFER_APPEND, LINE_APPEND, ACCOUNT_BY_ID, MESSAGE_SAME, MESSAGE_APPEND, ACCOUNT_PUT, TAIL};

static sqlite3 *db;
static sqlite3_stmt *made[STATEMENTS];

static void need(int is_fine, const char *what) {
    if (!is_fine) {
        fprintf(stderr, "floor: %s: %s\n", what, db == NULL ? "no database" : sqlite3_errmsg(db));
        exit(1);
    }
}

/* Values of a kind each: i a number, t a text, n none, b a balance. */
static void bind(sqlite3_stmt *statement, const char *kinds, ...) {
    static const char balance[16];
    va_list values;
    va_start(values, kinds);
    for (int at = 0; kinds[at]; at++)
        switch (kinds[at]) {
        case 'i': sqlite3_bind_int64(statement, at + 1, va_arg(values, int64_t)); break;
        case 't': sqlite3_bind_text(statement, at + 1, va_arg(values, const char *), -1, SQLITE_TRANSIENT); break;
        case 'b': sqlite3_bind_blob(statement, at + 1, balance, sizeof balance, SQLITE_STATIC); break;
        default: sqlite3_bind_null(statement, at + 1);
        }
    va_end(values);
}

#define N(number) ((int64_t)(number))

static void bind_for(enum statement which, const struct subject *of) {
    sqlite3_stmt *s = made[which];
    const int64_t due = N(1000000000) + of->domain, day = 86400;
    char name[32];
    snprintf(name, sizeof name, "n%06lld.test", (long long)of->domain);
    switch (which) {
    case META_PUT:
        bind(s, "iiittiiiiiiiiiiii", N(1), N(1), of->clock, "test", "nic www", N(5), N(45), N(5), N(5), N(30), N(7), N(5),
             N(5), N(60), N(800), N(800), N(800));
        break;
    case ACCOUNT_BY_ID: bind(s, "i", of->registrar); break;
    case ACCOUNT_PUT:
        bind(s, "itiiiibi", of->registrar, of->registrar == 1 ? "alfa" : "beta", N(7), N(0), of->domain, N(0), of->domain);
        break;
    case CONTACT_UNTIL_DUE: case DOMAIN_UNTIL_DUE: bind(s, "i", of->clock); break;
    case CONTACT_BY_NAME: bind(s, "t", "c-alfa"); break;
    case CONTACT_BY_ID: case TRANSFER_BY_CONTACT: bind(s, "i", N(1)); break;
    case CONTACT_APPEND:
        bind(s, "tiiiinntttnttnntnnt", "c-alfa", N(1), N(1), N(1), of->clock, "", "key-alfa", "Ann", "Road 1", "Town", "DE",
             "ann@alfa.example");
        break;
    case DOMAIN_BY_NAME: case DOMAIN_AND_REGISTRANT: case HOST_BY_ABOVE: bind(s, "t", name); break;
    case DOMAIN_APPEND:
        bind(s, "tiiiiinnttinni", name, N(1), of->domain, N(1), of->clock, N(1), "", "foo-secret", N(1), due);
        break;
    case DOMAIN_PUT:
        bind(s, "itiiiiinnttinni", of->domain, name, N(1), of->domain, N(1), of->clock, N(2), "", "foo-secret", N(1),
             due + 365 * day);
        break;
    case LINK_BY_DOMAIN: case LINK_REMOVE_DOMAIN: case TRANSFER_BY_DOMAIN: case TRANSFER_REMOVE_DOMAIN:
        bind(s, "i", of->domain);
        break;
    case LINK_MOVE: bind(s, "ii", of->domain, due + 365 * day); break;
    case TRANSFER_APPEND:
        bind(s, "niiiiini", of->domain, of->registrar, N(1), of->clock, of->clock + 5 * day, N(0));
        break;
    case LINE_BY_OBJECT: bind(s, "iii", N(1), N(1), of->domain); break;
    case LINE_APPEND:
        bind(s, "iiiiiiiini", of->registrar, N(1), N(1), of->domain, N(1), N(800), of->clock, of->clock + 5 * day,
             of->clock);
        break;
    case MESSAGE_SAME: case MESSAGE_APPEND:
        bind(s, "iiiitii", N(1), of->clock, N(1), of->domain, name, N(1), N(1));
        break;
    default: break;
    }
}

static void read_columns(sqlite3_stmt *row) {
    for (int at = 0; at < sqlite3_column_count(row); at++)
        switch (sqlite3_column_type(row, at)) {
        case SQLITE_INTEGER: (void)sqlite3_column_int64(row, at); break;
        case SQLITE_BLOB: (void)sqlite3_column_blob(row, at); break;
        case SQLITE_TEXT: (void)sqlite3_column_text(row, at); break;
        }
}

static double now(void) {
    struct timespec at;
    clock_gettime(CLOCK_MONOTONIC, &at);
    return (double)at.tv_sec + (double)at.tv_nsec / 1e9;
}

/* What each statement took, and how often it ran. */
static int is_noted;
static int is_counted;
static double spent[STATEMENTS];
static int64_t runs[STATEMENTS];

static void run(enum statement which, const struct subject *of) {
    const double begun = is_noted ? now() : 0;
    if (is_counted)
        CALLGRIND_ZERO_STATS;
    if (made[which] == NULL)
        need(sqlite3_prepare_v3(db, TEXTS[which], -1, SQLITE_PREPARE_PERSISTENT, &made[which], NULL) == SQLITE_OK,
             TEXTS[which]);
    bind_for(which, of);
    int told;
    while ((told = sqlite3_step(made[which])) == SQLITE_ROW)
        read_columns(made[which]);
    need(told == SQLITE_DONE, TEXTS[which]);
    sqlite3_reset(made[which]);
    if (is_counted)
        CALLGRIND_DUMP_STATS_AT(NAMES[which]);
    if (is_noted) {
        spent[which] += now() - begun;
        runs[which]++;
    }
}

static void command(const enum statement *of, size_t bytes, const struct subject *subject) {
    for (size_t at = 0; at < bytes / sizeof *of; at++)
        run(of[at], subject);
}

/* Times so many commands, on domains that lie spread over all that there are, or on new ones. */
static void timed(const char *word, const enum statement *of, size_t bytes, int64_t domains, int64_t commands, int64_t registrar,
                  int is_new) {
    const double begun = now();
    for (int64_t at = 0; at < commands; at++) {
        const struct subject subject = {is_new ? domains + at + 1 : at * (domains / commands) + 1, registrar, 1000 + at};
        command(of, bytes, &subject);
    }
    printf("%s %.1f\n", word, (now() - begun) * 1e6 / (double)commands);
}

int main(int words, char **word) {
    const int is_each = words == 5 && strcmp(word[4], "each") == 0;
    const int is_to_count = words == 5 && strcmp(word[4], "counted") == 0;
    need(words == 4 || is_each || is_to_count, "usage: floor DB DOMAINS COMMANDS [each|counted]");
    const int64_t domains = atoll(word[2]), commands = atoll(word[3]);
    need(commands > 0 && domains >= commands, "at least as many domains as commands, and one");
    need(sqlite3_open(word[1], &db) == SQLITE_OK, word[1]);
    need(sqlite3_exec(db, "PRAGMA journal_mode = WAL; PRAGMA synchronous = FULL; PRAGMA foreign_keys = ON", NULL, NULL, NULL) == SQLITE_OK, "PRAGMA");
    for (size_t at = 0; at < sizeof SCHEMA / sizeof *SCHEMA; at++)
        need(sqlite3_exec(db, SCHEMA[at], NULL, NULL, NULL) == SQLITE_OK, SCHEMA[at]);
    const struct subject first = {0, 1, 1}, second = {0, 2, 1};
    run(META_PUT, &first);
    run(ACCOUNT_PUT, &first);
    run(ACCOUNT_PUT, &second);
    run(CONTACT_APPEND, &first);
    sqlite3_exec(db, "PRAGMA synchronous = OFF", NULL, NULL, NULL);
    for (int64_t at = 1; at <= domains; at++) {
        const struct subject subject = {at, 1, 1};
        command(CREATE, sizeof CREATE, &subject);
    }
    sqlite3_exec(db, "PRAGMA synchronous = FULL", NULL, NULL, NULL);
    is_counted = is_to_count;
    timed("check", CHECK, sizeof CHECK, domains, commands, 1, 0);
    timed("info", INFO, sizeof INFO, domains, commands, 1, 0);
    timed("balance", BALANCE, sizeof BALANCE, domains, commands, 1, 0);
    is_noted = is_each;
    timed("create", CREATE, sizeof CREATE, domains, commands, 1, 1);
    is_noted = 0;
    timed("renew", RENEW, sizeof RENEW, domains, commands, 1, 0);
    timed("request", REQUEST, sizeof REQUEST, domains, commands, 2, 0);
    for (size_t at = 0; at < STATEMENTS; at++)
        if (runs[at] > 0)
            printf("statement %s %.1f %.2f\n", NAMES[at], (double)runs[at] / (double)commands, spent[at] * 1e6 / (double)runs[at]);
    return 0;
}
