/* Gets the threads of a program out of step. Loaded before the C library.

   With JITTER=n a thread waits at random before and after the calls of the system that a lock makes: to sleep on a
   word, to wake who sleeps there, to give the processor up. With HOLD=n a thread of this library interrupts the others
   at random, wherever they are; who is interrupted waits for a while in the handler and goes on. n begins the draws.

   With NAP=n each sleep on a word that has an end takes at least n milliseconds, so that no thread gets up by itself
   and has the others go on whose wake was missed. A thread of this library then looks at the lock: if it is free, and
   nobody moves it for half a second, and a thread sleeps beside it without an end, and all others sleep too all that
   time, a wake was missed, and the program ends with the status MISSED. The lock is free if the word on which its threads sleep and the word before
   it are the same: the ticket that is served, and the next one to be had. */
#define _GNU_SOURCE
#include <dirent.h>
#include <dlfcn.h>
#include <errno.h>
#include <linux/futex.h>
#include <pthread.h>
#include <signal.h>
#include <stdarg.h>
#include <stdatomic.h>
#include <stdio.h>
#include <stdlib.h>
#include <string.h>
#include <sys/prctl.h>
#include <sys/syscall.h>
#include <time.h>
#include <unistd.h>

#define ONE_IN 4               /* so many calls, of which one is delayed */
#define LONGEST_WAIT 60000     /* nanoseconds of a delayed call */
#define LONGEST_HOLD 20        /* a thread is held for up to two to that power of nanoseconds, mostly much shorter */
#define LONGEST_PAUSE 100000   /* nanoseconds from one that is held to the next, so that a thread gets on between */
#define INTERRUPT SIGUSR1      /* one that doesn't queue: a thread that is held isn't held again for it */

#define LOOK 50000000          /* nanoseconds between two looks at the lock, with NAP */
#define LOOKS 10               /* so many looks in a row at a lock that stays free */
#define MISSED 99
#define NO_END 1000000000      /* seconds: who is to sleep longer sleeps without an end */
#define THREADS 64

static atomic_uint draws;
static unsigned salt;
static int is_jittered;
static long nap; /* milliseconds */

/* Of each thread how often it began or ended a sleep without an end, so that it is odd while it sleeps; on which word,
   and which value that word had. */
static struct {
    atomic_uint times, value;
    const _Atomic unsigned long *_Atomic word;
} sleeps[THREADS];

static unsigned draw(void) {
    unsigned k = atomic_fetch_add(&draws, 1) * 2246822519u ^ salt;
    k = (k ^ k >> 15) * 2654435761u;
    return k ^ k >> 13;
}

static void wait_upto(long most) {
    struct timespec span = {0, draw() % most};
    nanosleep(&span, NULL);
}

static void jitter(void) {
    if (is_jittered && draw() % ONE_IN == 0) wait_upto(LONGEST_WAIT);
}

static long pass_on(long number, const long *words) {
    static long (*_Atomic next)(long, ...);
    if (!next) next = (long (*)(long, ...))dlsym(RTLD_NEXT, "syscall");
    return next(number, words[0], words[1], words[2], words[3], words[4], words[5]);
}

/* Sleeps with an end, but not for a shorter time than that of a nap. */
static long sleep_longer(const long *given) {
    const struct timespec *asked = (const struct timespec *)given[3];
    struct timespec longer = {nap / 1000, nap % 1000 * 1000000};
    long words[6] = {given[0], given[1], given[2], given[3], given[4], given[5]};
    if (asked->tv_sec == 0 && asked->tv_nsec < nap * 1000000) words[3] = (long)&longer;
    return pass_on(SYS_futex, words);
}

/* Sleeps without an end, where the thread that looks sees it. */
static long sleep_seen(const long *words) {
    static atomic_uint threads;
    static _Thread_local unsigned own = THREADS;
    if (own == THREADS) own = atomic_fetch_add(&threads, 1) % THREADS;
    sleeps[own].word = (const _Atomic unsigned long *)words[0];
    sleeps[own].value = (unsigned)words[2];
    sleeps[own].times++;
    long answer = pass_on(SYS_futex, words);
    sleeps[own].times++;
    return answer;
}

static long call(long number, const long *words) {
    int is_wait = number == SYS_futex && (words[1] & FUTEX_CMD_MASK) == FUTEX_WAIT;
    if (nap == 0 || !is_wait) return pass_on(number, words);
    const struct timespec *asked = (const struct timespec *)words[3];
    return asked && asked->tv_sec < NO_END ? sleep_longer(words) : sleep_seen(words);
}

long syscall(long number, ...) {
    long words[6];
    va_list given;
    va_start(given, number);
    for (int i = 0; i < 6; i++) words[i] = va_arg(given, long);
    va_end(given);
    if (number == SYS_futex) jitter();
    long answer = call(number, words);
    int error = errno;
    if (number == SYS_futex) jitter();
    errno = error;
    return answer;
}

int sched_yield(void) {
    static int (*_Atomic next)(void);
    if (!next) next = (int (*)(void))dlsym(RTLD_NEXT, "sched_yield");
    jitter();
    return next();
}

static void held(int signal) {
    int error = errno;
    (void)signal;
    wait_upto(1L << draw() % (LONGEST_HOLD + 1));
    errno = error;
}

/* Interrupts a thread of this process that is drawn, but not the one that calls. */
static void hold_one(pid_t process, pid_t self) {
    DIR *threads = opendir("/proc/self/task");
    pid_t chosen = 0;
    unsigned seen = 0;
    for (struct dirent *entry; threads && (entry = readdir(threads));) {
        pid_t thread = atoi(entry->d_name);
        if (thread > 0 && thread != self && draw() % ++seen == 0) chosen = thread;
    }
    if (threads) closedir(threads);
    if (chosen) syscall(SYS_tgkill, process, chosen, INTERRUPT);
}

static void *holder(void *given) {
    pid_t process = getpid(), self = (pid_t)syscall(SYS_gettid);
    prctl(PR_SET_TIMERSLACK, 1L);
    for (;;) {
        hold_one(process, self);
        wait_upto(LONGEST_PAUSE);
    }
    return given;
}

/* Whether every other thread of this process sleeps. One that has been woken may wait long for a processor. */
static int all_sleep(pid_t self) {
    DIR *threads = opendir("/proc/self/task");
    int sleep = threads != NULL;
    for (struct dirent *entry; threads && (entry = readdir(threads));) {
        char name[64], line[256];
        pid_t thread = atoi(entry->d_name);
        if (thread <= 0 || thread == self) continue;
        snprintf(name, sizeof name, "/proc/self/task/%d/stat", thread);
        FILE *file = fopen(name, "r");
        const char *end = file && fgets(line, sizeof line, file) ? strrchr(line, ')') : NULL;
        sleep = sleep && end && strlen(end) > 2 && end[2] == 'S';
        if (file) fclose(file);
    }
    if (threads) closedir(threads);
    return sleep;
}

/* Looks again and again for a thread that sleeps on while its lock is free and all others sleep too. The word has changed since it fell asleep,
   or the lock wouldn't be free; so other words, on which a thread waits for the end of the rest, aren't taken for it. */
static void *looker(void *given) {
    struct { unsigned times, looks; unsigned long served; } seen[THREADS] = {0};
    pid_t self = (pid_t)syscall(SYS_gettid);
    for (;;) {
        nanosleep(&(struct timespec){0, LOOK}, NULL);
        for (int i = 0; i < THREADS; i++) {
            unsigned times = sleeps[i].times;
            const _Atomic unsigned long *word = sleeps[i].word;
            if (times % 2 == 0) continue;
            unsigned long served = word[0];
            int is_free = word[-1] == served && (unsigned)served != sleeps[i].value;
            int is_same = seen[i].times == times && seen[i].served == served;
            seen[i].looks = is_free && is_same && all_sleep(self) ? seen[i].looks + 1 : 0;
            seen[i].times = times;
            seen[i].served = served;
            if (seen[i].looks == LOOKS) pass_on(SYS_exit_group, (const long[6]){MISSED});
        }
    }
    return given;
}

/* Starts a thread of this library, which no signal interrupts. */
static void start(void *(*run)(void *)) {
    sigset_t all, before;
    pthread_t thread;
    sigfillset(&all);
    pthread_sigmask(SIG_SETMASK, &all, &before);
    if (pthread_create(&thread, NULL, run, NULL)) abort();
    pthread_sigmask(SIG_SETMASK, &before, NULL);
}

__attribute__((constructor)) static void begin(void) {
    const char *jittered = getenv("JITTER"), *hold = getenv("HOLD"), *napping = getenv("NAP");
    salt = (unsigned)atoi(jittered ? jittered : hold ? hold : "0") * 2654435761u | 1;
    is_jittered = jittered != NULL;
    struct sigaction act = {.sa_handler = held, .sa_flags = SA_RESTART};
    if (hold) sigaction(INTERRUPT, &act, NULL);
    if (hold) start(holder);
    nap = napping ? atol(napping) : 0;
    if (nap) start(looker);
}
