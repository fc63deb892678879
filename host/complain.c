#include <stdarg.h>
#include <stdio.h>

#include "bytes.h"

void complain(const char *format, ...)
{
    va_list rest;
    va_start(rest, format);
    fputs("spinebriar: ", stderr);
    vfprintf(stderr, format, rest);
    fputc('\n', stderr);
    va_end(rest);
}
