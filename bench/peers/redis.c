/* Redis over a Unix socket: a caller is a connection. PLACE is the socket. The server has to answer only once its log is synced
   (appendfsync always), which is asked here.

   add        INCRBY
   many       64 times INCRBY, sent at once; then all answers are awaited
   transfer   a Lua script, which tests the accounts before it changes them: Redis has no invariants
   reads      MGET */
#include "callers.h"
#include <hiredis/hiredis.h>

static const char *const MOVE =
    "if tonumber(redis.call('GET', KEYS[1])) < 1 or tonumber(redis.call('GET', KEYS[2])) < -1 then "
    "return redis.error_reply('insolvent') end "
    "redis.call('DECRBY', KEYS[1], 1) redis.call('INCRBY', KEYS[2], 1) return 1";
static char script[64];

static redisContext *connected(const struct task *task) {
    redisContext *link = redisConnectUnix(task->place);
    if (!link || link->err) fail("redis: %s", link ? link->errstr : "no memory");
    return link;
}

/* An answer of this type, which is no error. */
static redisReply *answer(redisContext *link, redisReply *reply, int type) {
    if (!reply) fail("redis: %s", link->errstr);
    if (reply->type != type) fail("redis: answered %s", reply->str ? reply->str : "another type");
    return reply;
}

static void done(redisContext *link, redisReply *reply, int type) { freeReplyObject(answer(link, reply, type)); }

/* Whether the server has a setting. */
static void check_setting(redisContext *link, const char *name, const char *wanted) {
    redisReply *reply = answer(link, redisCommand(link, "CONFIG GET %s", name), REDIS_REPLY_ARRAY);
    if (reply->elements != 2 || strcmp(reply->element[1]->str, wanted)) fail("redis: %s is not %s", name, wanted);
    freeReplyObject(reply);
}

static void prepare(const struct task *task) {
    redisContext *link = connected(task);
    check_setting(link, "appendonly", "yes");
    check_setting(link, "appendfsync", "always");
    done(link, redisCommand(link, "FLUSHALL"), REDIS_REPLY_STATUS);
    for (int var = 0; var < task->size; var++)
        done(link, redisCommand(link, "SET var:%d %lld", var, first_value(var)), REDIS_REPLY_STATUS);
    redisReply *loaded = answer(link, redisCommand(link, "SCRIPT LOAD %s", MOVE), REDIS_REPLY_STRING);
    snprintf(script, sizeof script, "%s", loaded->str);
    freeReplyObject(loaded);
    redisFree(link);
}

static void *join(const struct task *task) { return connected(task); }

static long add_many(redisContext *link) {
    for (int k = 0; k < STRIDE; k++) redisAppendCommand(link, "INCRBY var:%d 1", COUNTER);
    for (int k = 0; k < STRIDE; k++) {
        void *reply = NULL;
        redisGetReply(link, &reply);
        done(link, reply, REDIS_REPLY_INTEGER);
    }
    return STRIDE;
}

static void two_reads(redisContext *link, long long *payer, long long *payee) {
    redisReply *reply = answer(link, redisCommand(link, "MGET var:%d var:%d", PAYER, PAYEE), REDIS_REPLY_ARRAY);
    *payer = atoll(reply->element[0]->str);
    *payee = atoll(reply->element[1]->str);
    freeReplyObject(reply);
}

static long turn(void *connection, const struct task *task) {
    redisContext *link = connection;
    long long payer, payee;
    switch (task->job) {
    case ADD: done(link, redisCommand(link, "INCRBY var:%d 1", COUNTER), REDIS_REPLY_INTEGER); return 1;
    case MANY: return add_many(link);
    case TRANSFER:
        done(link, redisCommand(link, "EVALSHA %s 2 var:%d var:%d", script, PAYER, PAYEE), REDIS_REPLY_INTEGER);
        return 1;
    case READS:
        two_reads(link, &payer, &payee);
        check_accounts(payer, payee);
        return 1;
    default: fail("redis: no such job");
    }
}

static void leave(void *connection) { redisFree(connection); }

static void find(const struct task *task, long long values[3]) {
    redisContext *link = connected(task);
    redisReply *reply = answer(link, redisCommand(link, "GET var:%d", COUNTER), REDIS_REPLY_STRING);
    values[COUNTER] = atoll(reply->str);
    freeReplyObject(reply);
    two_reads(link, &values[PAYER], &values[PAYEE]);
    redisFree(link);
}

int main(int count, char **words) {
    return drive(&(struct driver){prepare, join, turn, leave, find}, count, words);
}
