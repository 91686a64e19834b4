/* What programs with doubles name, and the headers of examples/port have not. A source that is compiled for the machine
   has it before its first line. */
#ifndef PORTED_ABSENT_H
#define PORTED_ABSENT_H

#include <stdio.h>
#include <time.h>

/* ---- by musl's sources */

double strtod(const char *text, char **end);
int double_snprintf(char *buffer, size_t size, const char *format, ...);
int double_sprintf(char *buffer, const char *format, ...);
int double_vsnprintf(char *buffer, size_t size, const char *format, va_list arguments);
int double_vsprintf(char *buffer, const char *format, va_list arguments);

/* ---- by absent.c, where they fail: no script asks for them */

int sscanf(const char *text, const char *format, ...);
double difftime(time_t end, time_t begin);
char *strptime(const char *text, const char *format, struct tm *store);
size_t strftime(char *buffer, size_t size, const char *format, const struct tm *parts);

#endif
