/* A store of tmem that is served (tmem serve) over two pipes. The client is one thread, and a caller is a request on its way: once it
   is answered, the caller sends the next. An answer is given once its transaction is durable. PLACE is a store that tmem init made, and
   a sixth argument the program.

   add        run of a kept transaction
   many       64 such requests, sent at once; then all answers are awaited
   transfer   the same, under the invariants of the store */
#define _GNU_SOURCE
#include "callers.h"
#include <errno.h>
#include <sys/wait.h>
#include <unistd.h>

static int to, from;
static char line[65536];

static void begin(const struct task *task, pid_t *child) {
    int in[2], out[2];
    if (pipe(in) || pipe(out)) fail("serve: no pipe");
    *child = fork();
    if (*child == 0) {
        dup2(in[0], 0);
        dup2(out[1], 1);
        close(in[1]);
        close(out[0]);
        execl(task->extra, task->extra, "serve", task->place, (char *)NULL);
        _exit(127);
    }
    close(in[0]);
    close(out[1]);
    to = in[1];
    from = out[0];
}

static void tell(const char *text, size_t count) {
    while (count) {
        ssize_t had = write(to, text, count);
        if (had < 0) fail("serve: %s", strerror(errno));
        text += had;
        count -= had;
    }
}

/* Reads what is there, and answers where its last whole line ends. What follows it is kept for the next time. */
static size_t receive(size_t *had, size_t used) {
    memmove(line, line + used, *had -= used);
    for (;;) {
        ssize_t more = read(from, line + *had, sizeof line - *had);
        if (more <= 0) fail("serve: it has ended");
        *had += more;
        char *end = memrchr(line, '\n', *had);
        if (end) return end + 1 - line;
    }
}

/* Asks, while nothing else is on its way, and leaves the answer in `line`. */
static void ask(const char *text) {
    size_t had = 0;
    tell(text, strlen(text));
    line[receive(&had, 0) - 1] = 0;
}

static void prepare(const struct task *task, pid_t *child) {
    char deposit[256];
    size_t had = 0;
    begin(task, child);
    receive(&had, 0); /* the line that tells the opening */
    snprintf(deposit, sizeof deposit, "{\"id\":0,\"settle\":{\"writes\":[[%d,%lld],[%d,%lld]]}}\n", PAYER, DEPOSIT, PAYEE, DEPOSIT);
    ask(deposit);
    if (!strstr(line, "committed")) fail("serve: %s", line);
    ask("{\"id\":0,\"keep\":[\"add\",{\"seq\":[{\"put\":[1,1]},{\"read\":[0,0]},{\"step\":[\"add\",[0,1],0]},{\"write\":[0,0]}]}]}\n");
    if (!strstr(line, "kept")) fail("serve: %s", line);
    ask("{\"id\":0,\"keep\":[\"transfer\",{\"seq\":[{\"put\":[2,1]},{\"read\":[1,0]},{\"read\":[2,1]},{\"step\":[\"sub\",[0,2],0]},"
        "{\"step\":[\"add\",[1,2],1]},{\"write\":[1,0]},{\"write\":[2,1]}]}]}\n");
    if (!strstr(line, "kept")) fail("serve: %s", line);
}

static int stride_of(const struct task *task) { return task->job == MANY ? STRIDE : 1; }

/* What a caller sends before it waits. */
static void request(const struct task *task, int caller, int *left, char *next, size_t *size) {
    const char *word = task->job == TRANSFER ? "transfer" : "add";
    for (left[caller] = 0; left[caller] < stride_of(task); left[caller]++)
        *size += sprintf(next + *size, "{\"id\":%d,\"run\":\"%s\"}\n", caller, word);
}

/* Takes an answer. Where it is the last that its caller waits for, and there is time, the caller goes on. */
static void take(const struct task *task, const char *answer, int *left, char *next, size_t *size) {
    int caller;
    long number;
    if (sscanf(answer, "{\"id\":%d,\"committed\":%ld,", &caller, &number) != 2) fail("serve: %.100s", answer);
    if (caller < 0 || caller >= task->callers || left[caller]-- <= 0) fail("serve: nobody asked: %.100s", answer);
    if (left[caller] == 0 && now() - start < task->seconds) request(task, caller, left, next, size);
}

static long work(const struct task *task) {
    static char next[1 << 20];
    int left[MOST_CALLERS];
    size_t size = 0, had = 0, end = 0;
    long operations = 0, sent = (long)task->callers * stride_of(task);
    for (int caller = 0; caller < task->callers; caller++) request(task, caller, left, next, &size);
    while (operations < sent) {
        tell(next, size);
        size = 0;
        end = receive(&had, end);
        for (char *at = line, *stop; at < line + end; at = stop + 1) {
            size_t before = size;
            stop = memchr(at, '\n', line + end - at);
            *stop = 0;
            take(task, at, left, next, &size);
            operations++;
            if (size > before) sent += stride_of(task);
        }
    }
    if (had != end) fail("serve: there are more answers than requests");
    return operations;
}

int main(int count, char **words) {
    struct task task = task_of(count, words);
    long long values[3];
    pid_t child;
    int status;
    prepare(&task, &child);
    start = now();
    long operations = work(&task);
    double seconds = now() - start;
    ask("{\"id\":0,\"get\":[0,1,2]}\n");
    const char *found = strstr(line, "\"values\":");
    if (!found || sscanf(found, "\"values\":[[0,%lld],[1,%lld],[2,%lld]]", &values[0], &values[1], &values[2]) != 3) fail("serve: %s", line);
    check_values(&task, operations, values);
    close(to);
    if (waitpid(child, &status, 0) != child || status) fail("serve: its status is %d", status);
    print_figures(operations, seconds);
    return 0;
}
