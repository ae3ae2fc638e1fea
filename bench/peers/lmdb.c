/* LMDB in one process, whose threads share an environment, as it has to be. Each commit is synced (no flag says otherwise). PLACE is a
   folder.

   add        a transaction that gets and puts
   many       64 adds in one transaction, of which a crash leaves all or nothing: LMDB has no commit that is synced later and safe
   transfer   a transaction that tests the accounts before it commits: LMDB has no invariants
   reads      a transaction that only reads, and is begun again by mdb_txn_renew */
#include "callers.h"
#include <lmdb.h>

static MDB_env *env;
static MDB_dbi table;

static void check(int status) {
    if (status) fail("lmdb: %s", mdb_strerror(status));
}

static void open_env(const struct task *task) {
    MDB_txn *txn;
    check(mdb_env_create(&env));
    check(mdb_env_set_mapsize(env, 16 << 20));
    check(mdb_env_open(env, task->place, 0, 0600));
    check(mdb_txn_begin(env, NULL, 0, &txn));
    check(mdb_dbi_open(txn, NULL, MDB_INTEGERKEY, &table));
    check(mdb_txn_commit(txn));
}

static long long get(MDB_txn *txn, unsigned var) {
    MDB_val key = {sizeof var, &var}, value;
    long long number;
    check(mdb_get(txn, table, &key, &value));
    memcpy(&number, value.mv_data, sizeof number);
    return number;
}

static void put(MDB_txn *txn, unsigned var, long long number) {
    MDB_val key = {sizeof var, &var}, value = {sizeof number, &number};
    check(mdb_put(txn, table, &key, &value, 0));
}

/* Fills what an opening has to read: as many records as the log of tmem takes, 64 in a transaction. */
static void fill(const struct task *task) {
    MDB_txn *txn;
    for (int batch = 0; batch < BATCHES; batch++) {
        check(mdb_txn_begin(env, NULL, 0, &txn));
        for (int k = 0; k < STRIDE; k++) {
            int var = (batch * STRIDE + k) % task->size;
            put(txn, var, get(txn, var) + 1);
        }
        check(mdb_txn_commit(txn));
    }
}

static void prepare(const struct task *task) {
    MDB_txn *txn;
    open_env(task);
    check(mdb_txn_begin(env, NULL, 0, &txn));
    for (int var = 0; var < task->size; var++) put(txn, var, task->job == OPEN ? 0 : first_value(var));
    check(mdb_txn_commit(txn));
    if (task->job != OPEN) return;
    fill(task);
    mdb_env_close(env);
}

/* For reads a transaction is kept, which is not open. */
static void *join(const struct task *task) {
    MDB_txn *txn = NULL;
    if (task->job != READS) return NULL;
    check(mdb_txn_begin(env, NULL, MDB_RDONLY, &txn));
    mdb_txn_reset(txn);
    return txn;
}

static long add(int times) {
    MDB_txn *txn;
    check(mdb_txn_begin(env, NULL, 0, &txn));
    for (int k = 0; k < times; k++) put(txn, COUNTER, get(txn, COUNTER) + 1);
    check(mdb_txn_commit(txn));
    return times;
}

static long transfer(void) {
    MDB_txn *txn;
    check(mdb_txn_begin(env, NULL, 0, &txn));
    put(txn, PAYER, get(txn, PAYER) - 1);
    put(txn, PAYEE, get(txn, PAYEE) + 1);
    if (get(txn, PAYER) < 0 || get(txn, PAYEE) < 0) fail("lmdb: insolvent");
    check(mdb_txn_commit(txn));
    return 1;
}

static long two_reads(MDB_txn *txn) {
    for (int k = 0; k < STRIDE; k++) {
        check(mdb_txn_renew(txn));
        check_accounts(get(txn, PAYER), get(txn, PAYEE));
        mdb_txn_reset(txn);
    }
    return STRIDE;
}

static long open_again(const struct task *task) {
    MDB_txn *txn;
    long long sum = 0;
    open_env(task);
    check(mdb_txn_begin(env, NULL, MDB_RDONLY, &txn));
    for (int var = 0; var < task->size; var++) sum += get(txn, var);
    mdb_txn_abort(txn);
    mdb_env_close(env);
    check_opened(task, task->size, sum);
    return 1;
}

static long turn(void *connection, const struct task *task) {
    switch (task->job) {
    case ADD: return add(1);
    case MANY: return add(STRIDE);
    case TRANSFER: return transfer();
    case READS: return two_reads(connection);
    default: return open_again(task);
    }
}

static void leave(void *connection) {
    if (connection) mdb_txn_abort(connection);
}

/* Opened again, so that the values are those of the file. */
static void find(const struct task *task, long long values[3]) {
    MDB_txn *txn;
    mdb_env_close(env);
    open_env(task);
    check(mdb_txn_begin(env, NULL, MDB_RDONLY, &txn));
    for (int var = 0; var < 3; var++) values[var] = get(txn, var);
    mdb_txn_abort(txn);
    mdb_env_close(env);
}

int main(int count, char **words) {
    return drive(&(struct driver){prepare, join, turn, leave, find}, count, words);
}
