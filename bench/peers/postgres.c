/* PostgreSQL over a Unix socket: a caller is a connection, and each transaction is serializable. PLACE is the folder of the socket.
   A transaction that the server could not serialize is run again, and counts once.

   add        one UPDATE
   many       64 times one UPDATE; the first 63 commit with synchronous_commit off, and the last one, with on, syncs all of them
   transfer   one statement with two UPDATEs; a deferred constraint trigger tests the accounts at the commit
   reads      one SELECT */
#include "callers.h"
#include <libpq-fe.h>

static const char *const TABLE =
    "DROP TABLE IF EXISTS vars; CREATE TABLE vars(var int PRIMARY KEY, value bigint NOT NULL);"
    "CREATE OR REPLACE FUNCTION solvent() RETURNS trigger LANGUAGE plpgsql AS $$ BEGIN "
    "IF EXISTS (SELECT FROM vars WHERE var IN (1, 2) AND value < 0) THEN RAISE 'insolvent'; END IF; RETURN NULL; END $$;"
    "CREATE CONSTRAINT TRIGGER solvent AFTER INSERT OR UPDATE ON vars DEFERRABLE INITIALLY DEFERRED "
    "FOR EACH ROW WHEN (NEW.var IN (1, 2)) EXECUTE FUNCTION solvent()";
static const char *const ROWS =
    "INSERT INTO vars SELECT k, CASE WHEN k IN (1, 2) THEN 1000000000000 ELSE 0 END FROM generate_series(0, %d) k";
static const char *const ADD_ONE = "UPDATE vars SET value = value + 1 WHERE var = 0";
static const char *const MOVE =
    "WITH paid AS (UPDATE vars SET value = value - 1 WHERE var = 1) UPDATE vars SET value = value + 1 WHERE var = 2";
static const char *const TWO = "SELECT one.value, two.value FROM vars one, vars two WHERE one.var = 1 AND two.var = 2";

static PGconn *connected(const struct task *task) {
    const char *const keys[] = {"host", "user", "dbname", NULL}, *const values[] = {task->place, "postgres", "postgres", NULL};
    PGconn *link = PQconnectdbParams(keys, values, 0);
    if (PQstatus(link) != CONNECTION_OK) fail("postgres: %s", PQerrorMessage(link));
    PQsetErrorVerbosity(link, PQERRORS_TERSE);
    return link;
}

/* Whether a transaction has to be run again: the server could not serialize it, or ended it for a deadlock. */
static int is_lost(const PGresult *result) {
    const char *state = PQresultErrorField(result, PG_DIAG_SQLSTATE);
    return state && (!strcmp(state, "40001") || !strcmp(state, "40P01"));
}

static int is_good(const PGresult *result) {
    return PQresultStatus(result) == PGRES_COMMAND_OK || PQresultStatus(result) == PGRES_TUPLES_OK;
}

static PGresult *good(PGconn *link, PGresult *result) {
    if (!is_good(result)) fail("postgres: %s", PQerrorMessage(link));
    return result;
}

static void run(PGconn *link, const char *text) { PQclear(good(link, PQexec(link, text))); }

/* Whether the server has a setting. */
static void check_setting(PGconn *link, const char *name, const char *wanted) {
    char query[64];
    snprintf(query, sizeof query, "SHOW %s", name);
    PGresult *result = good(link, PQexec(link, query));
    if (strcmp(PQgetvalue(result, 0, 0), wanted)) fail("postgres: %s is not %s", name, wanted);
    PQclear(result);
}

static void prepare(const struct task *task) {
    char rows[256];
    PGconn *link = connected(task);
    check_setting(link, "fsync", "on");
    check_setting(link, "synchronous_commit", "on");
    check_setting(link, "default_transaction_isolation", "serializable");
    snprintf(rows, sizeof rows, ROWS, task->size - 1);
    run(link, "SET client_min_messages = warning");
    run(link, TABLE);
    run(link, rows);
    PQfinish(link);
}

static void *join(const struct task *task) {
    PGconn *link = connected(task);
    PQclear(good(link, PQprepare(link, "add", ADD_ONE, 0, NULL)));
    PQclear(good(link, PQprepare(link, "move", MOVE, 0, NULL)));
    PQclear(good(link, PQprepare(link, "two", TWO, 0, NULL)));
    return link;
}

/* What was prepared, until the server has serialized it. */
static PGresult *serialized(PGconn *link, const char *name) {
    for (;;) {
        PGresult *result = PQexecPrepared(link, name, 0, NULL, NULL, NULL, 0);
        if (!is_lost(result)) return good(link, result);
        PQclear(result);
    }
}

/* An UPDATE that changed one row. */
static void update(PGconn *link, const char *name) {
    PGresult *result = serialized(link, name);
    if (strcmp(PQcmdTuples(result), "1")) fail("postgres: %s rows", PQcmdTuples(result));
    PQclear(result);
}

static long add_many(PGconn *link) {
    run(link, "SET synchronous_commit = off");
    for (int k = 1; k < STRIDE; k++) update(link, "add");
    run(link, "SET synchronous_commit = on");
    update(link, "add");
    return STRIDE;
}

static long two_reads(PGconn *link) {
    PGresult *result = serialized(link, "two");
    check_accounts(atoll(PQgetvalue(result, 0, 0)), atoll(PQgetvalue(result, 0, 1)));
    PQclear(result);
    return 1;
}

static long turn(void *connection, const struct task *task) {
    switch (task->job) {
    case ADD: update(connection, "add"); return 1;
    case MANY: return add_many(connection);
    case TRANSFER: update(connection, "move"); return 1;
    case READS: return two_reads(connection);
    default: fail("postgres: no such job");
    }
}

static void leave(void *connection) { PQfinish(connection); }

static void find(const struct task *task, long long values[3]) {
    PGconn *link = connected(task);
    PGresult *result = good(link, PQexec(link, "SELECT value FROM vars WHERE var < 3 ORDER BY var"));
    for (int var = 0; var < 3; var++) values[var] = atoll(PQgetvalue(result, var, 0));
    PQclear(result);
    PQfinish(link);
}

int main(int count, char **words) {
    return drive(&(struct driver){prepare, join, turn, leave, find}, count, words);
}
