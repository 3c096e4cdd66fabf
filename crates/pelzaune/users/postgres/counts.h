/* Values of the library as PostgreSQL counts them: microseconds and days since 2000-01-01. Plain C, which needs no
 * server.
 *
 * Each count returns 0 where PostgreSQL's type is too narrow for the value. A nanosecond is rounded down. */
#ifndef PELZAUNE_COUNTS_H
#define PELZAUNE_COUNTS_H

#include "pelzaune.h"

#define FIRST_SECOND INT64_C(-211813488000) /* 4714-11-24 BC, the first day of each type */
#define END_SECOND INT64_C(9223371331200)   /* 294277-01-01, the first after timestamps */
#define SECONDS_A_DAY INT64_C(86400)
#define UNIX_2000 INT64_C(946684800)

/* Days since 2000-01-01, where the year 0 is 1 BC, counted in cycles of 400 years that start in March. */
static inline int64_t days_of(pelzaune_date date)
{
    int64_t year = date.month > 2 ? date.year : (int64_t)date.year - 1;
    int64_t cycle = (year - (year < 0 ? 399 : 0)) / 400, year_of = year - 400 * cycle;
    int64_t day_of = (153 * (date.month + (date.month > 2 ? -3 : 9)) + 2) / 5 + date.day - 1;
    return 146097 * cycle + 365 * year_of + year_of / 4 - year_of / 100 + day_of - 730425;
}

/* The date of that day: the inverse of days_of. */
static inline pelzaune_date date_of(int64_t days)
{
    int64_t day = days + 730425, cycle = (day - (day < 0 ? 146096 : 0)) / 146097;
    int64_t of = day - 146097 * cycle, year = (of - of / 1460 + of / 36524 - of / 146096) / 365;
    int64_t rest = of - (365 * year + year / 4 - year / 100), month = (5 * rest + 2) / 153;
    pelzaune_date found = { (int32_t)(400 * cycle + year + (month > 9)), (uint8_t)(month < 10 ? month + 3 : month - 9),
        (uint8_t)(rest - (153 * month + 2) / 5 + 1) };
    return found;
}

static inline int64_t seconds_of_clock(unsigned hour, unsigned minute, unsigned second)
{
    return (hour * INT64_C(60) + minute) * 60 + second;
}

static inline int count_of(int64_t seconds, uint32_t nanosecond, int64_t *count)
{
    if (seconds < FIRST_SECOND || seconds >= END_SECOND) return 0;
    *count = seconds * 1000000 + nanosecond / 1000;
    return 1;
}

static inline int count_of_instant(const pelzaune_instant *it, int64_t *count)
{
    return count_of(it->seconds - UNIX_2000, it->nanoseconds, count);
}

static inline int count_of_local(const pelzaune_local *it, int64_t *count)
{
    pelzaune_date date = { it->year, it->month, it->day };
    return count_of(days_of(date) * SECONDS_A_DAY + seconds_of_clock(it->hour, it->minute, it->second), it->nanosecond, count);
}

static inline int count_of_date(const pelzaune_date *it, int32_t *count)
{
    int64_t days = days_of(*it);
    if (days * SECONDS_A_DAY < FIRST_SECOND) return 0;
    *count = (int32_t)days;
    return 1;
}

static inline int64_t count_of_time(const pelzaune_time *it)
{
    return seconds_of_clock(it->hour, it->minute, it->second) * 1000000 + it->nanosecond / 1000;
}

/* The second of a count of microseconds, rounded down. */
static inline int64_t second_of(int64_t count)
{
    return (count - (count < 0 ? 999999 : 0)) / 1000000;
}

/* The moment of that many microseconds, in the range of timestamps, at an offset. */
static inline pelzaune_moment moment_of_count(int64_t count, int32_t offset)
{
    int64_t second = second_of(count), local = second + offset;
    int64_t day = (local - (local < 0 ? SECONDS_A_DAY - 1 : 0)) / SECONDS_A_DAY, clock = local - day * SECONDS_A_DAY;
    pelzaune_date date = date_of(day);
    pelzaune_moment found = { date.year, (uint32_t)(count - second * 1000000) * 1000, offset, date.month, date.day,
        (uint8_t)(clock / 3600), (uint8_t)(clock / 60 % 60), (uint8_t)(clock % 60) };
    return found;
}

#endif
