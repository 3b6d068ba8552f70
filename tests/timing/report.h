/* A line for each case, and how many passed and failed. */
#ifndef REPORT_H
#define REPORT_H

/* What came of a case so far: how often memcheck complained, how often it is to, and the first thing that was wrong
 * besides, or null. */
struct outcome {
    unsigned long complaints, due;
    const char *wrong;
};

/* That something holds; else it is what was wrong, unless something was before. */
void expect(struct outcome *o, int holds, const char *otherwise);

/* A call of which memcheck complained so often, and is to complain so often: none too few, and none too many. */
void count(struct outcome *o, unsigned long found, unsigned long due);

/* A case passes if nothing was wrong and memcheck complained as often as is due; a control, if it complained. The name
 * is as for printf. */
__attribute__((format(printf, 2, 3))) void report_case(const struct outcome *o, const char *name, ...);
__attribute__((format(printf, 2, 3))) void report_control(const struct outcome *o, const char *name, ...);

/* Cargo's last line; the status for main. */
int report_all(void);

#endif
