/* The streams of picolibc: what is written to stdout and stderr goes to put_byte; stdin is at its end. */
#include "hart.h"
#include <stdio.h>

static int put(char byte, FILE *stream)
{
    (void)stream;
    put_byte((unsigned char)byte);
    return (unsigned char)byte;
}

static int get(FILE *stream)
{
    (void)stream;
    return _FDEV_EOF;
}

static FILE bytes = FDEV_SETUP_STREAM(put, get, NULL, _FDEV_SETUP_RW);

FILE *const stdin = &bytes;
FILE *const stdout = &bytes;
FILE *const stderr = &bytes;
