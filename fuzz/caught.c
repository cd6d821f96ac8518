/* Failed checks abort, and a touched guard page is a fault: both are signals. */
#define _POSIX_C_SOURCE 200809L /* sigaction */
#include "caught.h"
#include "calls.h"

#include <signal.h>
#include <stdio.h>
#include <unistd.h>

static void (*tell_more)(void);

/* An emulator may give it a stack that is not aligned, so it aligns its own. */
__attribute__((force_align_arg_pointer)) static void on_signal(int number) {
    if (number != SIGABRT) {
        fprintf(stderr, "failed: a fault, signal %d\n", number);
        show_call(&last_call);
    }
    tell_more();
    _exit(1);
}

void catch_failures(void (*tell)(void)) {
    static const int numbers[] = {SIGSEGV, SIGBUS, SIGFPE, SIGILL, SIGABRT};
    const struct sigaction action = {.sa_handler = on_signal};
    tell_more = tell;
    for (size_t n = 0; n < sizeof numbers / sizeof *numbers; n++) {
        sigaction(numbers[n], &action, NULL);
    }
}
