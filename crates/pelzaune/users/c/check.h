/* Shared code of the tests. Each text ends before an inaccessible page. */
#ifndef CHECK_H
#define CHECK_H

#define _GNU_SOURCE
#include "pelzaune.h"
#include <stdio.h>
#include <string.h>
#include <sys/mman.h>

static int passed, failed;

static inline void expect(int is_right, const char *what, int line)
{
    if (is_right) passed++;
    else { failed++; printf("line %d: %s\n", line, what); }
}
#define EXPECT(is_right) expect((is_right), #is_right, __LINE__)

enum { PAGE = 4096 };
static uint8_t *page; /* between two inaccessible pages */

static inline uint8_t *guarded_page(void)
{
    uint8_t *pages = mmap(NULL, 3 * PAGE, PROT_NONE, MAP_PRIVATE | MAP_ANONYMOUS, -1, 0);
    if (pages == MAP_FAILED || mprotect(pages + PAGE, PAGE, PROT_READ | PROT_WRITE)) return NULL;
    return pages + PAGE;
}

/* The bytes, at the end of the page and at its start. */
static inline const uint8_t *at_end(const char *text, size_t length)
{
    return memcpy(page + PAGE - length, text, length);
}
static inline const uint8_t *at_front(const char *text, size_t length)
{
    return memcpy(page, text, length);
}
#define TEXT(text) at_end((text), sizeof(text) - 1), sizeof(text) - 1

/* A description, at the end of a page of its own. */
static uint8_t *other_page;
static inline const uint8_t *described(const char *text, size_t length)
{
    return memcpy(other_page + PAGE - length, text, length);
}
#define DESCRIPTION(text) described((text), sizeof(text) - 1), sizeof(text) - 1

/* Parses a description, or returns 0. */
static inline int describe(uint32_t syntax, const char *text, pelzaune_description *out)
{
    size_t index;
    return pelzaune_describe(syntax, described(text, strlen(text)), strlen(text), out, &index) == PELZAUNE_OK;
}

/* Maps both pages. */
static inline int has_pages(void)
{
    page = guarded_page();
    other_page = guarded_page();
    return page && other_page;
}

/* Texts of moments, and how many of the prefixes of each are a moment too, as `+05` of `+05:30`. The first five
 * are the examples of RFC 3339, section 5.8; the next three of RFC 2822, appendix A. */
typedef struct {
    uint32_t format;
    const char *text;
    int shorter;
    pelzaune_moment value; /* year, nanosecond, offset, month, day, hour, minute, second */
} row;
static const row rows[] = {
    { PELZAUNE_RFC3339, "1985-04-12T23:20:50.52Z", 0, { 1985, 520000000, 0, 4, 12, 23, 20, 50 } },
    { PELZAUNE_RFC3339, "1996-12-19T16:39:57-08:00", 0, { 1996, 0, -28800, 12, 19, 16, 39, 57 } },
    { PELZAUNE_RFC3339, "1990-12-31T23:59:60Z", 0, { 1990, 999999999, 0, 12, 31, 23, 59, 59 } },
    { PELZAUNE_RFC3339, "1990-12-31T15:59:60-08:00", 0, { 1990, 999999999, -28800, 12, 31, 15, 59, 59 } },
    { PELZAUNE_RFC3339, "1937-01-01T12:00:27.87+00:20", 0, { 1937, 870000000, 1200, 1, 1, 12, 0, 27 } },
    { PELZAUNE_RFC2822, "Fri, 21 Nov 1997 09:55:06 -0600", 0, { 1997, 0, -21600, 11, 21, 9, 55, 6 } },
    { PELZAUNE_RFC2822, "Tue, 1 Jul 2003 10:52:37 +0200", 0, { 2003, 0, 7200, 7, 1, 10, 52, 37 } },
    { PELZAUNE_RFC2822, "Thu, 13 Feb 1969 23:32:54 -0330", 0, { 1969, 0, -12600, 2, 13, 23, 32, 54 } },
    { PELZAUNE_RFC3339, "2021-01-02T03:04:05.123456789+05:30", 0, { 2021, 123456789, 19800, 1, 2, 3, 4, 5 } },
    { PELZAUNE_RFC3339, "0000-02-29t00:00:00z", 0, { 0, 0, 0, 2, 29, 0, 0, 0 } },
    { PELZAUNE_RFC3339, "2021-01-02 03:04:05.5-00:30", 0, { 2021, 500000000, -1800, 1, 2, 3, 4, 5 } },
    { PELZAUNE_RFC2822, "Thu,\r\n 13\r\n Feb (a comment) 1969\r\n 23:32\r\n -0330", 0, { 1969, 0, -12600, 2, 13, 23, 32, 0 } },
    { PELZAUNE_RFC2822, "21 Nov 97 09:55:06 +0000", 0, { 1997, 0, 0, 11, 21, 9, 55, 6 } },
    { PELZAUNE_ISO8601, "20210102T030405Z", 0, { 2021, 0, 0, 1, 2, 3, 4, 5 } },
    { PELZAUNE_ISO8601, "2021-01-02T03:04:05,25-00:30", 1, { 2021, 250000000, -1800, 1, 2, 3, 4, 5 } },
    { PELZAUNE_ISO8601, "2020-W53-6T03:04:05Z", 0, { 2021, 0, 0, 1, 2, 3, 4, 5 } },
    { PELZAUNE_ISO8601, "2020-366T23Z", 0, { 2020, 0, 0, 12, 31, 23, 0, 0 } },
    { PELZAUNE_ISO8601, "2021-01-02T03,5Z", 0, { 2021, 0, 0, 1, 2, 3, 30, 0 } },
    { PELZAUNE_ISO8601, "+012345-06-07T08:09:10+05:30", 1, { 12345, 0, 19800, 6, 7, 8, 9, 10 } },
    { PELZAUNE_ISO8601, "-000001-12-31T23:59:59.9Z", 0, { -1, 900000000, 0, 12, 31, 23, 59, 59 } },
    { PELZAUNE_RFC3339_STRICT, "1985-04-12T23:20:50Z", 0, { 1985, 0, 0, 4, 12, 23, 20, 50 } },
    { PELZAUNE_RFC3339_STRICT, "1985-04-12t23:20:50Z", 0, { 1985, 0, 0, 4, 12, 23, 20, 50 } },
    { PELZAUNE_RFC3339_STRICT, "1985-04-12 23:20:50Z", 0, { 1985, 0, 0, 4, 12, 23, 20, 50 } },
    { PELZAUNE_RFC3339_STRICT, "1990-12-31T15:59:60-08:00", 0, { 1990, 999999999, -28800, 12, 31, 15, 59, 59 } },
};
enum { ROWS = sizeof rows / sizeof *rows };

#endif
