/* A library that is preloaded into oomd. oomd evaluates its rules, sleeps, and evaluates them again.
   The library stops the clock of oomd while oomd works, and reports each sleep of its main thread to
   the driver. The driver writes the machine's files for the time at which the sleep ends, and
   answers with that time. The library redirects /proc, /sys and /dev/kmsg to below PSIOOMD_ROOT. It
   refuses to kill processes, to connect to any socket except oomd's own, and to open files outside
   the folder of PSIOOMD_ROOT for writing.

   cc -O2 -shared -fPIC -o clock.so clock.c -ldl */
#define _GNU_SOURCE
#include <dirent.h>
#include <dlfcn.h>
#include <errno.h>
#include <fcntl.h>
#include <glob.h>
#include <pthread.h>
#include <signal.h>
#include <stdarg.h>
#include <stdint.h>
#include <stdio.h>
#include <stdlib.h>
#include <string.h>
#include <sys/socket.h>
#include <sys/stat.h>
#include <sys/syscall.h>
#include <sys/time.h>
#include <sys/un.h>
#include <time.h>
#include <unistd.h>

#define NS 1000000000LL
#define NEXT(name) ({ static __typeof__(name) *next; if (!next) next = dlsym(RTLD_NEXT, #name); next; })

static volatile int64_t now;                    /* ns since the start */
static int64_t up = 1000000 * NS;               /* monotonic time at the start: 0 means never to oomd */
static const int64_t date = 1700000000 * NS;    /* wall time at the start */
static int to_driver = -1, from_driver = -1;
static char root[1024], folder[1024];

/* ---- the driver */

static void send_message(char what, int64_t value) {
  char message[9];
  message[0] = what;
  memcpy(message + 1, &value, 8);
  for (size_t done = 0; done < 9;) {
    ssize_t n = write(to_driver, message + done, 9 - done);
    if (n <= 0) _exit(99);
    done += n;
  }
}

static int64_t receive_time(void) {
  int64_t value;
  for (size_t done = 0; done < 8;) {
    ssize_t n = read(from_driver, (char *)&value + done, 8 - done);
    if (n < 0 && errno == EINTR) continue;
    if (n <= 0) _exit(0);                        /* the driver has closed the connection */
    done += n;
  }
  return value;
}

__attribute__((constructor)) static void begin(void) {
  const char *r = getenv("PSIOOMD_ROOT"), *f = getenv("PSIOOMD_FOLDER");
  const char *out = getenv("PSIOOMD_OUT"), *in = getenv("PSIOOMD_IN");
  if (!r || !f || !out || !in || strlen(r) >= sizeof root || strlen(f) >= sizeof folder) return;
  strcpy(root, r);
  strcpy(folder, f);
  to_driver = atoi(out);
  from_driver = atoi(in);
  fcntl(to_driver, F_SETFD, FD_CLOEXEC);
  fcntl(from_driver, F_SETFD, FD_CLOEXEC);
  if (getenv("PSIOOMD_UPTIME_NS")) up = atoll(getenv("PSIOOMD_UPTIME_NS"));
  unsetenv("LD_PRELOAD");
  send_message('H', getpid());
}

static int is_main(void) { return to_driver >= 0 && syscall(SYS_gettid) == getpid(); }

/* ---- time */

static int64_t ns(const struct timespec *t) { return t->tv_sec * NS + t->tv_nsec; }

static struct timespec spec(int64_t n) { return (struct timespec){n / NS, n % NS}; }

static int64_t start_of(clockid_t clock) {       /* -1 if the clock isn't controlled */
  switch (clock) {
    case CLOCK_MONOTONIC: case CLOCK_MONOTONIC_RAW: case CLOCK_MONOTONIC_COARSE: case CLOCK_BOOTTIME:
      return up;
    case CLOCK_REALTIME: case CLOCK_REALTIME_COARSE:
      return date;
    default:
      return -1;
  }
}

static void sleep_until(int64_t end) {
  send_message('S', end);
  now = receive_time();
}

int clock_gettime(clockid_t clock, struct timespec *t) {
  int64_t start = start_of(clock);
  if (to_driver < 0 || start < 0) return NEXT(clock_gettime)(clock, t);
  *t = spec(start + now);
  return 0;
}

int gettimeofday(struct timeval *restrict t, void *restrict zone) {
  struct timespec s;
  clock_gettime(CLOCK_REALTIME, &s);
  t->tv_sec = s.tv_sec;
  t->tv_usec = s.tv_nsec / 1000;
  return 0;
}

time_t time(time_t *p) {
  struct timespec s;
  clock_gettime(CLOCK_REALTIME, &s);
  if (p) *p = s.tv_sec;
  return s.tv_sec;
}

int nanosleep(const struct timespec *t, struct timespec *rest) {
  if (!is_main()) return NEXT(nanosleep)(t, rest);
  sleep_until(now + ns(t));
  return 0;
}

int clock_nanosleep(clockid_t clock, int flags, const struct timespec *t, struct timespec *rest) {
  int64_t start = start_of(clock);
  if (!is_main() || start < 0) return NEXT(clock_nanosleep)(clock, flags, t, rest);
  sleep_until(flags & TIMER_ABSTIME ? ns(t) - start : now + ns(t));
  return 0;
}

unsigned sleep(unsigned s) {
  struct timespec t = {s, 0};
  nanosleep(&t, 0);
  return 0;
}

int usleep(useconds_t us) {
  struct timespec t = spec(us * 1000LL);
  return nanosleep(&t, 0);
}

/* Converts a deadline on the controlled clock to a deadline on the real clock. */
static struct timespec real_deadline(clockid_t clock, const struct timespec *t) {
  struct timespec real;
  NEXT(clock_gettime)(clock, &real);
  return spec(ns(&real) + ns(t) - start_of(clock) - now);
}

/* Advances the controlled clock to a deadline at which a wait of the main thread has ended. */
static int after_wait(int status, clockid_t clock, const struct timespec *t) {
  int64_t end = ns(t) - start_of(clock);
  if (status == ETIMEDOUT && is_main() && now < end) now = end;
  return status;
}

int pthread_cond_clockwait(pthread_cond_t *c, pthread_mutex_t *m, clockid_t clock, const struct timespec *t) {
  if (to_driver < 0) return NEXT(pthread_cond_clockwait)(c, m, clock, t);
  struct timespec real = real_deadline(clock, t);
  return after_wait(NEXT(pthread_cond_clockwait)(c, m, clock, &real), clock, t);
}

int pthread_cond_timedwait(pthread_cond_t *restrict c, pthread_mutex_t *restrict m, const struct timespec *restrict t) {
  if (to_driver < 0) return NEXT(pthread_cond_timedwait)(c, m, t);
  struct timespec real = real_deadline(CLOCK_REALTIME, t);
  return after_wait(NEXT(pthread_cond_timedwait)(c, m, &real), CLOCK_REALTIME, t);
}

/* ---- files */

static int begins(const char *path, const char *prefix) { return !strncmp(path, prefix, strlen(prefix)); }

/* Returns the path below PSIOOMD_ROOT for a file of the machine, and other paths unchanged. */
static const char *moved(const char *path, char *room) {
  if (!root[0] || !path || path[0] != '/' || begins(path, "/proc/self/")) return path;
  int is_machine = begins(path, "/proc/") || begins(path, "/sys/") || !strcmp(path, "/proc") || !strcmp(path, "/dev/kmsg");
  if (!is_machine || strlen(root) + strlen(path) >= 4000) return path;
  strcpy(room, root);
  return strcat(room, path);
}

/* Returns whether to refuse access: if a file outside the folder would be written. */
static int is_refused(const char *path, int is_write) {
  if (!is_write || to_driver < 0 || !path || path[0] != '/') return 0;
  if (begins(path, folder) && path[strlen(folder)] == '/' && !strstr(path, "/..")) return 0;
  return strcmp(path, "/dev/null") != 0;
}

#define MOVED char room[8192]; path = moved(path, room)
#define WRITES(flags) (((flags) & O_ACCMODE) != O_RDONLY || ((flags) & (O_CREAT | O_TRUNC)))
#define OPENS(flags) MOVED; if (is_refused(path, WRITES(flags))) { errno = EROFS; return -1; }
#define MODE mode_t mode = 0; \
  if (flags & (O_CREAT | O_TMPFILE)) { va_list list; va_start(list, flags); mode = va_arg(list, int); va_end(list); }

int open(const char *path, int flags, ...) { MODE OPENS(flags) return NEXT(open)(path, flags, mode); }
int open64(const char *path, int flags, ...) { MODE OPENS(flags) return NEXT(open64)(path, flags, mode); }
int openat(int d, const char *path, int flags, ...) { MODE OPENS(flags) return NEXT(openat)(d, path, flags, mode); }
int openat64(int d, const char *path, int flags, ...) { MODE OPENS(flags) return NEXT(openat64)(d, path, flags, mode); }
int __open_2(const char *path, int flags) { OPENS(flags) return NEXT(open)(path, flags, 0); }
int __open64_2(const char *path, int flags) { OPENS(flags) return NEXT(open64)(path, flags, 0); }
int __openat_2(int d, const char *path, int flags) { OPENS(flags) return NEXT(openat)(d, path, flags, 0); }
int __openat64_2(int d, const char *path, int flags) { OPENS(flags) return NEXT(openat64)(d, path, flags, 0); }

#define OPENS_STREAM MOVED; if (is_refused(path, mode[0] != 'r' || strchr(mode, '+'))) { errno = EROFS; return 0; }
FILE *fopen(const char *restrict path, const char *restrict mode) { OPENS_STREAM return NEXT(fopen)(path, mode); }
FILE *fopen64(const char *restrict path, const char *restrict mode) { OPENS_STREAM return NEXT(fopen64)(path, mode); }

#define CHANGES if (is_refused(path, 1)) { errno = EROFS; return -1; }
int unlink(const char *path) { CHANGES return NEXT(unlink)(path); }
int rename(const char *path, const char *to) { CHANGES if (is_refused(to, 1)) { errno = EROFS; return -1; } return NEXT(rename)(path, to); }

DIR *opendir(const char *path) { MOVED; return NEXT(opendir)(path); }
int access(const char *path, int mode) { MOVED; return NEXT(access)(path, mode); }
int stat(const char *restrict path, struct stat *restrict s) { MOVED; return NEXT(stat)(path, s); }
int stat64(const char *restrict path, struct stat64 *restrict s) { MOVED; return NEXT(stat64)(path, s); }

/* Removes PSIOOMD_ROOT from the paths that glob has found, so that oomd gets its own names. */
static void rename_found(char **names, size_t count) {
  size_t length = strlen(root);
  for (size_t i = 0; i < count; i++)
    if (begins(names[i], root)) memmove(names[i], names[i] + length, strlen(names[i] + length) + 1);
}
int glob(const char *restrict path, int flags, int (*f)(const char *, int), glob_t *restrict g) {
  MOVED;
  int status = NEXT(glob)(path, flags, f, g);
  if (!status && path == room) rename_found(g->gl_pathv, g->gl_pathc);
  return status;
}
int glob64(const char *restrict path, int flags, int (*f)(const char *, int), glob64_t *restrict g) {
  MOVED;
  int status = NEXT(glob64)(path, flags, f, g);
  if (!status && path == room) rename_found(g->gl_pathv, g->gl_pathc);
  return status;
}

/* ---- extended attributes of a group, each represented by a file in its folder */

ssize_t fgetxattr(int fd, const char *name, void *value, size_t size) {
  if (to_driver < 0) return NEXT(fgetxattr)(fd, name, value, size);
  const char *file = strstr(name, "oomd_prefer") ? ".prefer" : strstr(name, "oomd_avoid") ? ".avoid" : 0;
  if (!file || !begins(name, "user.") || faccessat(fd, file, F_OK, 0)) {
    errno = ENODATA;
    return -1;
  }
  if (size) *(char *)value = '1';
  return 1;
}
ssize_t getxattr(const char *path, const char *name, void *value, size_t size) {
  errno = ENODATA;
  return -1;
}
int setxattr(const char *path, const char *name, const void *value, size_t size, int flags) { return 0; }

/* ---- refused system calls */

int kill(pid_t pid, int signal) {
  if (to_driver < 0) return NEXT(kill)(pid, signal);
  send_message('K', pid);
  errno = ESRCH;
  return -1;
}

int connect(int fd, const struct sockaddr *address, socklen_t size) {
  const char *path = address && address->sa_family == AF_UNIX ? ((const struct sockaddr_un *)address)->sun_path : "";
  if (to_driver < 0 || !is_refused(path[0] == '/' ? path : "/", 1)) return NEXT(connect)(fd, address, size);
  errno = ECONNREFUSED;
  return -1;
}
