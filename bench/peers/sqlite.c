/* SQLite in one process: a caller is a connection, with a write-ahead log that each commit syncs (synchronous=full). A caller that
   finds the store busy asks again after a tenth of a millisecond. PLACE is a folder.

   add        one UPDATE
   many       64 times one UPDATE, of which only the last one syncs the log, and by that all before it
   transfer   two UPDATEs in a transaction; a CHECK of the table says that no value is below 0, and is tested at each UPDATE
   reads      one SELECT
   open       opens, with the log as the callers of a killed program leave it, and reads all */
#include "callers.h"
#include <sqlite3.h>
#include <unistd.h>

struct link {
    sqlite3 *db;
    sqlite3_stmt *add, *move[4], *reads;
};

static void check(sqlite3 *db, int status) {
    if (status) fail("sqlite: %s", sqlite3_errmsg(db));
}

static void run(sqlite3 *db, const char *text) { check(db, sqlite3_exec(db, text, NULL, NULL, NULL)); }

static int ask_again(void *none, int times) {
    (void)none;
    usleep(100);
    return times < 100000;
}

/* The only number that a query finds. */
static long long number(sqlite3 *db, const char *query) {
    sqlite3_stmt *it;
    check(db, sqlite3_prepare_v2(db, query, -1, &it, NULL));
    if (sqlite3_step(it) != SQLITE_ROW) fail("sqlite: %s", sqlite3_errmsg(db));
    long long found = sqlite3_column_int64(it, 0);
    sqlite3_finalize(it);
    return found;
}

static sqlite3 *opened(const struct task *task) {
    char path[4096];
    sqlite3 *db;
    snprintf(path, sizeof path, "%s/store", task->place);
    if (sqlite3_open_v2(path, &db, SQLITE_OPEN_READWRITE | SQLITE_OPEN_CREATE | SQLITE_OPEN_NOMUTEX, NULL)) fail("sqlite: no store");
    sqlite3_busy_handler(db, ask_again, NULL);
    return db;
}

static sqlite3 *connected(const struct task *task) {
    sqlite3 *db = opened(task);
    run(db, "PRAGMA journal_mode = WAL");
    run(db, "PRAGMA synchronous = FULL");
    if (number(db, "PRAGMA synchronous") != 2) fail("sqlite: synchronous is not full");
    return db;
}

/* Fills what an opening has to read, and leaves the log as it is. */
static void fill(const struct task *task, sqlite3 *db) {
    char update[128];
    run(db, "PRAGMA wal_checkpoint(TRUNCATE)");
    run(db, "PRAGMA wal_autocheckpoint = 0");
    for (int batch = 0; batch < BATCHES; batch++) {
        run(db, "BEGIN IMMEDIATE");
        for (int k = 0; k < STRIDE; k++) {
            snprintf(update, sizeof update, "UPDATE vars SET value = value + 1 WHERE var = %d", (batch * STRIDE + k) % task->size);
            run(db, update);
        }
        run(db, "COMMIT");
    }
    sqlite3_db_config(db, SQLITE_DBCONFIG_NO_CKPT_ON_CLOSE, 1, NULL);
}

static void prepare(const struct task *task) {
    char row[128];
    sqlite3 *db = connected(task);
    run(db, "BEGIN IMMEDIATE");
    run(db, "CREATE TABLE vars(var INTEGER PRIMARY KEY, value INTEGER NOT NULL CHECK (value >= 0))");
    for (int var = 0; var < task->size; var++) {
        snprintf(row, sizeof row, "INSERT INTO vars VALUES (%d, %lld)", var, task->job == OPEN ? 0 : first_value(var));
        run(db, row);
    }
    run(db, "COMMIT");
    if (task->job == OPEN) fill(task, db);
    sqlite3_close(db);
}

static sqlite3_stmt *prepared(sqlite3 *db, const char *text) {
    sqlite3_stmt *it;
    check(db, sqlite3_prepare_v3(db, text, -1, SQLITE_PREPARE_PERSISTENT, &it, NULL));
    return it;
}

static void *join(const struct task *task) {
    struct link *link = calloc(1, sizeof *link);
    if (task->job == OPEN) return link;
    link->db = connected(task);
    link->add = prepared(link->db, "UPDATE vars SET value = value + 1 WHERE var = 0");
    link->move[0] = prepared(link->db, "BEGIN IMMEDIATE");
    link->move[1] = prepared(link->db, "UPDATE vars SET value = value - 1 WHERE var = 1");
    link->move[2] = prepared(link->db, "UPDATE vars SET value = value + 1 WHERE var = 2");
    link->move[3] = prepared(link->db, "COMMIT");
    link->reads = prepared(link->db, "SELECT one.value, two.value FROM vars one, vars two WHERE one.var = 1 AND two.var = 2");
    return link;
}

static void step(struct link *link, sqlite3_stmt *it) {
    if (sqlite3_step(it) != SQLITE_DONE) fail("sqlite: %s", sqlite3_errmsg(link->db));
    check(link->db, sqlite3_reset(it));
}

static long add_many(struct link *link) {
    run(link->db, "PRAGMA synchronous = NORMAL");
    for (int k = 1; k < STRIDE; k++) step(link, link->add);
    run(link->db, "PRAGMA synchronous = FULL");
    step(link, link->add);
    return STRIDE;
}

static long transfer(struct link *link) {
    for (int k = 0; k < 4; k++) step(link, link->move[k]);
    return 1;
}

static long two_reads(struct link *link) {
    if (sqlite3_step(link->reads) != SQLITE_ROW) fail("sqlite: %s", sqlite3_errmsg(link->db));
    check_accounts(sqlite3_column_int64(link->reads, 0), sqlite3_column_int64(link->reads, 1));
    sqlite3_reset(link->reads);
    return 1;
}

static long open_again(const struct task *task) {
    sqlite3 *db = opened(task);
    sqlite3_db_config(db, SQLITE_DBCONFIG_NO_CKPT_ON_CLOSE, 1, NULL);
    long long sum = number(db, "SELECT sum(value) FROM vars"), count = number(db, "SELECT count(*) FROM vars");
    sqlite3_close(db);
    check_opened(task, count, sum);
    return 1;
}

static long turn(void *connection, const struct task *task) {
    struct link *link = connection;
    switch (task->job) {
    case ADD: step(link, link->add); return 1;
    case MANY: return add_many(link);
    case TRANSFER: return transfer(link);
    case READS: return two_reads(link);
    default: return open_again(task);
    }
}

static void leave(void *connection) {
    struct link *link = connection;
    for (int k = 0; k < 4; k++) sqlite3_finalize(link->move[k]);
    sqlite3_finalize(link->add);
    sqlite3_finalize(link->reads);
    sqlite3_close(link->db);
    free(link);
}

static void find(const struct task *task, long long values[3]) {
    char query[64];
    sqlite3 *db = opened(task);
    for (int var = 0; var < 3; var++) {
        snprintf(query, sizeof query, "SELECT value FROM vars WHERE var = %d", var);
        values[var] = number(db, query);
    }
    sqlite3_close(db);
}

int main(int count, char **words) {
    return drive(&(struct driver){prepare, join, turn, leave, find}, count, words);
}
