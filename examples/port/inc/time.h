/* A run knows no time, for it is the same each time: the clocks stand still. What a number of seconds is as a date
   is there. */
#ifndef PORT_TIME_H
#define PORT_TIME_H

#include <stddef.h>

typedef long time_t;
typedef long clock_t;

#define CLOCKS_PER_SEC 1000000L

struct tm {
    int tm_sec, tm_min, tm_hour;
    int tm_mday, tm_mon, tm_year; /* from 1, from 0, from 1900 */
    int tm_wday, tm_yday;         /* from Sunday, from the first of January */
    int tm_isdst;
};

#ifdef __cplusplus
extern "C" {
#endif

time_t time(time_t *store); /* 0, which is the beginning of 1970 */
clock_t clock(void);        /* 0 */

/* The time at each place is that of Greenwich. */
struct tm *gmtime(const time_t *seconds);
struct tm *localtime(const time_t *seconds);
struct tm *gmtime_r(const time_t *seconds, struct tm *date);
struct tm *localtime_r(const time_t *seconds, struct tm *date);
time_t mktime(struct tm *date);

#ifdef __cplusplus
}
#endif

#endif
