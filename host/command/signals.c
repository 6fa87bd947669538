#define _GNU_SOURCE
#include "signals.h"

#include <stdarg.h>
#include <stdint.h>
#include <stdio.h>
#include <string.h>
#include <unistd.h>

#include "messages.h"
#include "temporary.h"
#include "text.h"

static const int ending[] = {SIGHUP, SIGINT, SIGQUIT, SIGTERM, SIGXCPU};
enum { ENDING = sizeof ending / sizeof *ending, SENTENCE = 8192 };

/* One sentence is said while the other is written. */
static char standings[2][SENTENCE] = {"nothing was changed", ""};
static volatile sig_atomic_t standing;
static int status_now = STATUS_FAILED;
static bool cut_off;

static volatile pid_t child;
static volatile sig_atomic_t passed;

static struct {
    const void *start;
    volatile size_t length;
    char message[SENTENCE];
} mappings[MAPPINGS];

static void ending_set(sigset_t *set)
{
    sigemptyset(set);
    for (int i = 0; i < ENDING; i++)
        sigaddset(set, ending[i]);
}

static void put(const char *text)
{
    (void)!write_all(STDERR_FILENO, text, strlen(text));
}

/* In a handler: only calls that are safe there. */
static void clean_up(const char *why, const char *more)
{
    put("mdf-columns: ");
    put(why);
    put(more);
    const char *left = remove_temporaries();
    if (left) {
        put("; the temporary file ");
        put(left);
        put(" could not be removed");
    }
    put("\n");
}

static void end_by(int number)
{
    signal(number, SIG_DFL);
    raise(number); /* taken when the handler returns */
}

static void on_ending(int number)
{
    if (child > 0) {
        passed = number;
        kill(child, number);
        return;
    }
    clean_up("ended by a signal; ", standings[standing]);
    end_by(number);
}

static void on_fault(int number, siginfo_t *info, void *context)
{
    (void)context;
    for (int i = 0; i < MAPPINGS; i++)
        if ((uintptr_t)info->si_addr - (uintptr_t)mappings[i].start < mappings[i].length) {
            clean_up(mappings[i].message, "");
            _exit(STATUS_FAILED);
        }
    clean_up("a fault in memory; ", standings[standing]);
    end_by(number);
}

void catch_signals(void)
{
    struct sigaction action = {.sa_handler = on_ending}, before;
    ending_set(&action.sa_mask);
    for (int i = 0; i < ENDING; i++)
        if (sigaction(ending[i], NULL, &before) == 0 && before.sa_handler != SIG_IGN)
            sigaction(ending[i], &action, NULL);
    struct sigaction fault = {.sa_sigaction = on_fault, .sa_flags = SA_SIGINFO};
    ending_set(&fault.sa_mask);
    sigaction(SIGBUS, &fault, NULL);
    signal(SIGCHLD, SIG_DFL); /* one who ignores it would not be told how a child ended */
    signal(SIGPIPE, SIG_IGN);
    signal(SIGXFSZ, SIG_IGN);
}

void hold_signals(sigset_t *before)
{
    sigset_t set;
    ending_set(&set);
    sigprocmask(SIG_BLOCK, &set, before);
}

void release_signals(const sigset_t *before)
{
    sigprocmask(SIG_SETMASK, before, NULL);
}

void set_standing(int status, const char *format, ...)
{
    int next = !standing;
    va_list arguments;
    va_start(arguments, format);
    vsnprintf(standings[next], SENTENCE, format, arguments);
    va_end(arguments);
    make_plain(standings[next], strlen(standings[next]));
    standing = next;
    status_now = status;
    cut_off = false;
}

void set_cut_off(const char *path)
{
    set_standing(STATUS_FAILED, "%s is cut off: it is refused (5) until it is converted again", path);
    cut_off = true;
}

bool result_changed(void)
{
    return cut_off || status_now == STATUS_STANDING;
}

int standing_status(void)
{
    return status_now;
}

const char *standing_words(void)
{
    return standings[standing];
}

void pass_signals_to(pid_t process)
{
    child = process;
}

int signal_passed(void)
{
    return passed;
}

void watch_mapping(enum mapping which, const void *bytes, size_t length, const char *format, ...)
{
    va_list arguments;
    va_start(arguments, format);
    vsnprintf(mappings[which].message, SENTENCE, format, arguments);
    va_end(arguments);
    make_plain(mappings[which].message, strlen(mappings[which].message));
    mappings[which].start = bytes;
    mappings[which].length = length;
}

void forget_mapping(enum mapping which)
{
    mappings[which].length = 0;
}
