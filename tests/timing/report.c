/* The lines that are printed. */
#include "report.h"

#include <stdarg.h>
#include <stdio.h>

static unsigned long passed, failed;

void expect(struct outcome *o, int holds, const char *otherwise)
{
    if (!holds && o->wrong == NULL)
        o->wrong = otherwise;
}

void count(struct outcome *o, unsigned long found, unsigned long due)
{
    o->complaints += found;
    o->due += due;
    expect(o, found == due, "a call has not as many complaints as are due");
}

static void line(const struct outcome *o, int fine, const char *name, va_list words)
{
    printf("test constant_time: ");
    vprintf(name, words);
    printf(fine ? " ... ok" : " ... FAILED");
    if (o->complaints > 0)
        printf(" (complaints: %lu)", o->complaints);
    if (o->wrong != NULL)
        printf(": %s", o->wrong);
    printf("\n");
    fflush(stdout);
    passed += fine;
    failed += !fine;
}

void report_case(const struct outcome *o, const char *name, ...)
{
    va_list words;
    va_start(words, name);
    line(o, o->complaints == o->due && o->wrong == NULL, name, words);
    va_end(words);
}

void report_control(const struct outcome *o, const char *name, ...)
{
    va_list words;
    va_start(words, name);
    line(o, o->complaints > 0 && o->wrong == NULL, name, words);
    va_end(words);
}

int report_all(void)
{
    printf("test result: %s. %lu passed; %lu failed; 0 ignored\n", failed == 0 ? "ok" : "FAILED", passed, failed);
    return failed == 0 && passed > 0 ? 0 : 1;
}
