/* The watch over forbidden pages. */
#include "watch.h"

#include <signal.h>
#include <stdio.h>
#include <string.h>
#include <sys/wait.h>
#include <unistd.h>

unsigned long case_under_way;

static void touched(int signal_number)
{
    char line[100];
    int length = snprintf(line, sizeof line, "memory: case %lu touched a byte that is not its own\n", case_under_way);
    if (write(STDERR_FILENO, line, (size_t)length) < 0)
        _exit(signal_number);
    _exit(1);
}

void watch(void)
{
    struct sigaction action;
    memset(&action, 0, sizeof action);
    action.sa_handler = touched;
    sigaction(SIGSEGV, &action, NULL);
    sigaction(SIGBUS, &action, NULL);
}

/* Whether a process that touches the byte is stopped. */
static int stopped(const struct lent *lent, ptrdiff_t index, int writes)
{
    fflush(NULL);
    pid_t child = fork();
    if (child == 0) {
        volatile uint8_t *byte = lent->at + index;
        if (freopen("/dev/null", "w", stderr) == NULL)
            _exit(0);
        if (writes)
            *byte = 1;
        else
            (void)*byte;
        _exit(0);
    }
    int status = 0;
    return child > 0 && waitpid(child, &status, 0) == child && !(WIFEXITED(status) && WEXITSTATUS(status) == 0);
}

int watch_works(enum place place)
{
    static const uint8_t bytes[21] = {0};
    struct lent lent = lend(place, bytes, sizeof bytes, 0);
    int past = stopped(&lent, sizeof bytes, 0), before = stopped(&lent, -1, 0), writing = stopped(&lent, 0, 1);
    int inside = stopped(&lent, 20, 0);
    take_back(&lent);
    if (place == ON_THE_HEAP)
        return past && before && !inside;
    return (place == BEFORE_A_WALL ? past : before) && writing && !inside;
}
