/* Loaded before a program's libraries. It appends a line for each call to the file CALLS: what is called, the name of the file,
   the offset in it and how many bytes. And it lets calls fail, as these variables say:
   FAILING=N  the Nth call that writes, syncs or names a file
   ERRNO=N    that call fails by this error, else by EIO
   KILLED=N   the program is killed at that call, and half of a write is done then
   SHORT=N    no call moves more than N bytes of a file
   THREADS=N  N threads can be started
   STOPPED=1  no clock can be read
   SLOW=N     each sync lasts N milliseconds more, and how often threads let others run is told, by hundreds
   REFUSED=N  the Nth request for memory (malloc and realloc, the only ones that the programs make)
   ROOM=N     standard output takes N bytes
   ZERO=N     the Nth write to it takes nothing
   SIGNALOUT=N   a signal comes at the Nth write to it, which takes nothing then
   GIVEN=N    standard input gives N bytes and then fails
   FEW=N      a read of it gives no more than N bytes
   SIGNAL=N   a signal comes at the Nth read of it, which gives nothing then */
#define _GNU_SOURCE
#include <dlfcn.h>
#include <errno.h>
#include <fcntl.h>
#include <pthread.h>
#include <sched.h>
#include <signal.h>
#include <stdio.h>
#include <stdlib.h>
#include <string.h>
#include <sys/syscall.h>
#include <time.h>
#include <unistd.h>

#define REAL(call) static __typeof__(&call) real; if (!real) real = (__typeof__(&call))dlsym(RTLD_NEXT, #call)
static _Atomic long made, started, requests, yields, loads, prints;
static long out = -1, room = -1, given = -1, slow = -1, at_once = -1, signalled = -1, zero = -1, signalled_out = -1;

static long number(const char *name) {
  const char *text = getenv(name);
  return text ? atol(text) : -1;
}

__attribute__((constructor)) static void begin(void) {
  out = open(getenv("CALLS"), O_WRONLY | O_APPEND | O_CREAT, 0600);
  room = number("ROOM");
  given = number("GIVEN");
  slow = number("SLOW");
  at_once = number("FEW");
  signalled = number("SIGNAL");
  zero = number("ZERO");
  signalled_out = number("SIGNALOUT");
}

/* It asks for no memory, since it is called by those that do. */
static void say(const char *call, const char *path, long at, long count) {
  char line[512];
  const char *last = strrchr(path, '/');
  syscall(SYS_write, out, line, snprintf(line, sizeof line, "%s %.255s %ld %ld\n", call, last ? last + 1 : path, at, count));
}

static void say_of(const char *call, int file, long at, long count) {
  char link[64], path[4096];
  snprintf(link, sizeof link, "/proc/self/fd/%d", file);
  ssize_t n = readlink(link, path, sizeof path - 1);
  path[n < 0 ? 0 : n] = 0;
  char *gone = strstr(path, " (deleted)");
  if (gone) *gone = 0;
  say(call, path, at, count);
}

static int fails(void) {
  if (++made == number("KILLED")) kill(getpid(), SIGKILL);
  if (made != number("FAILING")) return 0;
  errno = number("ERRNO") > 0 ? (int)number("ERRNO") : EIO;
  return 1;
}

static size_t few(size_t count) {
  long most = number("SHORT");
  return most >= 0 && count > (size_t)most ? (size_t)most : count;
}

ssize_t pwrite(int file, const void *bytes, size_t count, off_t at) {
  REAL(pwrite);
  say_of("write", file, at, count);
  if (made + 1 == number("KILLED")) real(file, bytes, count / 2, at);
  return fails() ? -1 : real(file, bytes, few(count), at);
}

ssize_t pread(int file, void *bytes, size_t count, off_t at) {
  REAL(pread);
  say_of("read", file, at, count);
  return real(file, bytes, few(count), at);
}

/* Threads let others run, each time by this call: each hundredth is told. */
int sched_yield(void) {
  REAL(sched_yield);
  long count = ++yields;
  if (slow >= 0 && count % 100 == 0) say("yield", "thread", 0, count);
  return real();
}

#define SYNC(call) int call(int file) { \
  REAL(call); \
  say_of("sync", file, 0, 0); \
  if (slow > 0) usleep(1000 * slow); \
  return fails() ? -1 : real(file); }
SYNC(fsync)
SYNC(fdatasync)

int link(const char *old, const char *new) {
  REAL(link);
  say("link", old, 0, 0);
  return fails() ? -1 : real(old, new);
}

int unlink(const char *old) {
  REAL(unlink);
  say("unlink", old, 0, 0);
  return real(old);
}

/* What goes through a standard stream: all of it, or a part where there is no more room, or no more to be given. */
static ssize_t moved(const char *stream, long *left, ssize_t count) {
  if (count > 0 && *left > 0) *left -= count;
  if (count > 0) say(stream, stream, 0, count);
  return count;
}

ssize_t write(int file, const void *bytes, size_t count) {
  REAL(write);
  if (file != 1) return real(file, bytes, count);
  errno = EINTR;
  if (++prints == signalled_out) return -1;
  if (prints == zero) return 0;
  errno = EPIPE;
  return room ? moved("print", &room, real(file, bytes, room > 0 && count > (size_t)room ? (size_t)room : count)) : -1;
}

ssize_t read(int file, void *bytes, size_t count) {
  REAL(read);
  if (file != 0) return real(file, bytes, count);
  errno = EINTR;
  if (++loads == signalled) return -1;
  errno = EIO;
  if (at_once >= 0 && count > (size_t)at_once) count = at_once;
  return given ? moved("load", &given, real(file, bytes, given > 0 && count > (size_t)given ? (size_t)given : count)) : -1;
}

static int is_refused(size_t size) {
  if (out < 0) return 0;
  say("request", "memory", 0, size);
  if (++requests != number("REFUSED")) return 0;
  errno = ENOMEM;
  return 1;
}

void *malloc(size_t size) {
  REAL(malloc);
  return is_refused(size) ? NULL : real(size);
}

void *realloc(void *old, size_t size) {
  REAL(realloc);
  return is_refused(size) ? NULL : real(old, size);
}

int pthread_create(pthread_t *thread, const pthread_attr_t *how, void *(*body)(void *), void *argument) {
  REAL(pthread_create);
  long most = number("THREADS");
  return most >= 0 && started++ >= most ? EAGAIN : real(thread, how, body, argument);
}

int clock_gettime(clockid_t clock, struct timespec *now) {
  REAL(clock_gettime);
  errno = EINVAL;
  return number("STOPPED") > 0 ? -1 : real(clock, now);
}
