/* Signals that end the command: temporary files are removed first, and what stands is said. */
#ifndef SIGNALS_H
#define SIGNALS_H

#include <signal.h>
#include <stdbool.h>
#include <stddef.h>
#include <sys/types.h>

/* A signal that ends the command removes temporary files; a fault in a mapped file (SIGBUS) ends it with status 1; a full pipe and a
 * passed file size limit are errors of the call that meets them. */
void catch_signals(void);

/* Between these two no signal ends the command, so that a name and what is known of it change together. */
void hold_signals(sigset_t *before);
void release_signals(const sigset_t *before);

/* What stands if the command ends now: the status for that, and what is said of it. */
__attribute__((format(printf, 2, 3))) void set_standing(int status, const char *format, ...);
int standing_status(void);
const char *standing_words(void);

/* An old RESULT that is stored over is cut off from now on, until set_standing says otherwise; whether RESULT is another than before, so that a message of
 * failure is followed by what stands. */
void set_cut_off(const char *path);
bool result_changed(void);

/* Such a signal is passed on to this process; 0 to none. A signal that came meanwhile, or 0. */
void pass_signals_to(pid_t child);
int signal_passed(void);

/* A mapped file: a fault in it ends the command with this message. */
enum mapping { MAPPED_RECORDING, MAPPED_OUTPUT, MAPPED_ANEW, MAPPED_RESULT, MAPPINGS };
__attribute__((format(printf, 4, 5))) void watch_mapping(enum mapping which, const void *bytes, size_t length, const char *format, ...);
void forget_mapping(enum mapping which);

#endif
