/* Dates, of a clock that stands still. */
#include <time.h>

#include <sys/time.h>

enum { DAY = 24 * 60 * 60 };

time_t time(time_t *store)
{
    if (store)
        *store = 0;
    return 0;
}

clock_t clock(void)
{
    return 0;
}

int gettimeofday(struct timeval *now, void *zone)
{
    (void)zone;
    *now = (struct timeval){ 0, 0 };
    return 0;
}

static int is_leap(int year)
{
    return (year % 4 == 0 && year % 100 != 0) || year % 400 == 0;
}

/* the days of a year before a month */
static int days_before(int month, int year)
{
    static const short days[] = { 0, 31, 59, 90, 120, 151, 181, 212, 243, 273, 304, 334 };

    return days[month] + (month > 1 && is_leap(year));
}

/* The days from the beginning of 1970 up to that of a year, which is 1600 or a later one. */
static int days_up_to(int year)
{
    int before = year - 1;

    return 365 * (year - 1970) + before / 4 - before / 100 + before / 400 - 477;
}

struct tm *gmtime_r(const time_t *seconds, struct tm *date)
{
    int day = *seconds / DAY, rest = *seconds % DAY;

    if (rest < 0) {
        rest += DAY;
        day--;
    }

    /* no year that is too late */
    int year = 1970 + (day < 0 ? day / 365 - 1 : day / 366);
    while (days_up_to(year + 1) <= day)
        year++;

    int of_year = day - days_up_to(year), month = 11;
    while (days_before(month, year) > of_year)
        month--;
    *date = (struct tm){
        .tm_sec = rest % 60,
        .tm_min = rest / 60 % 60,
        .tm_hour = rest / 3600,
        .tm_mday = of_year - days_before(month, year) + 1,
        .tm_mon = month,
        .tm_year = year - 1900,
        .tm_wday = ((day + 4) % 7 + 7) % 7,
        .tm_yday = of_year,
    };
    return date;
}

struct tm *localtime_r(const time_t *seconds, struct tm *date)
{
    return gmtime_r(seconds, date);
}

struct tm *gmtime(const time_t *seconds)
{
    static struct tm date;

    return gmtime_r(seconds, &date);
}

struct tm *localtime(const time_t *seconds)
{
    return gmtime(seconds);
}

/* What a field has too much goes to the next one, and all are set anew. A date that is no time_t is -1. */
time_t mktime(struct tm *date)
{
    int months = date->tm_mon % 12, year = 1900 + date->tm_year + date->tm_mon / 12;

    if (months < 0) {
        months += 12;
        year--;
    }
    if (year < 1900 || year > 2040)
        return -1;

    long long day = days_up_to(year) + days_before(months, year) + (long long)date->tm_mday - 1;
    long long seconds = day * DAY + date->tm_hour * 3600ll + date->tm_min * 60ll + date->tm_sec;
    time_t found = seconds;
    if (found != seconds)
        return -1;
    gmtime_r(&found, date);
    return found;
}
