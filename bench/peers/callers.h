/* What the drivers of the peers share: callers that begin together, the time that they have, and what is checked at the end.

   A driver is run as DRIVER JOB CALLERS SECONDS PLACE SIZE, where the store of SIZE variables is made anew in PLACE. Each caller is a
   thread, which repeats the operation of the job until the time is over. The time ends when the last caller has. The jobs:

   add        adds 1 to the counter, which is durable before the next
   many       the same, but only at each 64th time the caller waits until that and all before are durable
   transfer   moves 1 from one account to the other, neither of which may be below 0
   reads      reads both accounts, at one moment
   open       opens a store whose log has 4096 records, reads all variables, and closes it

   At the end the values are read over a new connection, and have to be what the callers counted: no update is lost, none is made
   twice. Then OPERATIONS and SECONDS are printed. Whatever fails is told on standard error, and the status is 1. */
#ifndef CALLERS_H
#define CALLERS_H
#include <pthread.h>
#include <stdarg.h>
#include <stdio.h>
#include <stdlib.h>
#include <string.h>
#include <time.h>

#define DEPOSIT 1000000000000LL
#define STRIDE 64
#define BATCHES 64
#define RECORDS (BATCHES * STRIDE)
#define MOST_CALLERS 64
enum { COUNTER, PAYER, PAYEE };
enum job { ADD, MANY, TRANSFER, READS, OPEN };
static const char *const JOBS[] = {"add", "many", "transfer", "reads", "open"};

struct task {
    enum job job;
    int callers, size;
    double seconds;
    const char *place, *extra;
};

struct driver {
    void (*prepare)(const struct task *);
    void *(*join)(const struct task *);                  /* a caller's connection */
    long (*turn)(void *connection, const struct task *); /* how many operations it did */
    void (*leave)(void *connection);
    void (*find)(const struct task *, long long values[3]);
};

struct caller {
    const struct driver *driver;
    const struct task *task;
    pthread_t thread;
    long operations;
};

static pthread_barrier_t ready;
static double start;

__attribute__((noreturn, format(printf, 1, 2))) static inline void fail(const char *format, ...) {
    va_list words;
    va_start(words, format);
    vfprintf(stderr, format, words);
    va_end(words);
    fputc('\n', stderr);
    exit(1);
}

static inline double now(void) {
    struct timespec time;
    clock_gettime(CLOCK_MONOTONIC, &time);
    return time.tv_sec + time.tv_nsec / 1e9;
}

static inline struct task task_of(int count, char **words) {
    if (count < 6) fail("%s JOB CALLERS SECONDS PLACE SIZE", words[0]);
    struct task task = {.callers = atoi(words[2]), .seconds = atof(words[3]), .place = words[4], .size = atoi(words[5])};
    task.extra = count > 6 ? words[6] : "";
    while (task.job <= OPEN && strcmp(JOBS[task.job], words[1])) task.job++;
    if (task.job > OPEN || task.callers < 1 || task.callers > MOST_CALLERS || task.size < 3) fail("no such job: %s", words[1]);
    return task;
}

/* What a variable has at the start. */
static inline long long first_value(int var) { return var == PAYER || var == PAYEE ? DEPOSIT : 0; }

/* What two reads of the accounts have to come to. */
static inline void check_accounts(long long payer, long long payee) {
    if (payer != DEPOSIT || payee != DEPOSIT) fail("read %lld and %lld", payer, payee);
}

/* What an opening has to find: of each record of the log one more, round the variables. */
static inline void check_opened(const struct task *task, long long count, long long sum) {
    if (count != task->size || sum != RECORDS) fail("opened %lld variables with %lld in all", count, sum);
}

static inline void check_values(const struct task *task, long operations, const long long values[3]) {
    long long added = task->job == ADD || task->job == MANY ? operations : 0;
    long long moved = task->job == TRANSFER ? operations : 0;
    long long wanted[3] = {added, DEPOSIT - moved, DEPOSIT + moved};
    for (int var = 0; var < 3; var++)
        if (values[var] != wanted[var]) fail("variable %d is %lld and not %lld", var, values[var], wanted[var]);
    if (!operations) fail("nothing was done");
}

static inline void print_figures(long operations, double seconds) { printf("%ld %.6f\n", operations, seconds); }

static inline void *call(void *it) {
    struct caller *caller = it;
    const struct task *task = caller->task;
    void *connection = caller->driver->join(task);
    pthread_barrier_wait(&ready);
    pthread_barrier_wait(&ready);
    do caller->operations += caller->driver->turn(connection, task);
    while (now() - start < task->seconds);
    pthread_barrier_wait(&ready);
    caller->driver->leave(connection);
    return NULL;
}

/* Lets the callers of a task do its job, and checks what is there at the end. */
static inline int drive(const struct driver *driver, int count, char **words) {
    struct task task = task_of(count, words);
    struct caller callers[MOST_CALLERS];
    long long values[3];
    long operations = 0;
    driver->prepare(&task);
    pthread_barrier_init(&ready, NULL, task.callers + 1);
    for (int k = 0; k < task.callers; k++) {
        callers[k] = (struct caller){.driver = driver, .task = &task};
        if (pthread_create(&callers[k].thread, NULL, call, &callers[k])) fail("no thread");
    }
    pthread_barrier_wait(&ready); /* all have joined */
    start = now();
    pthread_barrier_wait(&ready);
    pthread_barrier_wait(&ready); /* all have ended */
    double seconds = now() - start;
    for (int k = 0; k < task.callers; k++) {
        pthread_join(callers[k].thread, NULL);
        operations += callers[k].operations;
    }
    if (task.job != OPEN) {
        driver->find(&task, values);
        check_values(&task, operations, values);
    }
    print_figures(operations, seconds);
    return 0;
}
#endif
