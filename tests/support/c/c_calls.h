/* What callers of the library for C in these tests share. */
#ifndef C_CALLS_H
#define C_CALLS_H

#include "registryd.h"

#include <pthread.h>
#include <stdio.h>
#include <stdlib.h>
#include <string.h>

/* Ends the caller where something does not hold, and prints what. */
#define WANT(that) do { if (!(that)) { printf("line %d: %s\n", __LINE__, #that); exit(1); } } while (0)

static const char list[] = "{\"op\":\"list\"}\n";
static const char listed[] = "{\"packages\":[],\"revision\":0}\n";
static const char publish[] = "{\"op\":\"publish\",\"name\":\"a\",\"version\":\"1.0.0\",\"needs\":[]}\n";
static const char published[] = "{\"ok\":true,\"revision\":1}\n";
static const char listed_a[] = "{\"packages\":[[\"a\",[[\"1.0.0\",false]]]],\"revision\":1}\n";

static inline void fed(registryd_session session, const char *text)
{
    WANT(registryd_feed(session, text, strlen(text)) == REGISTRYD_OK);
}

static inline void told(registryd_session session, const char *wanted)
{
    char text[512];
    size_t length = 7, left = 7;
    WANT(registryd_take(session, text, sizeof text, &length, &left) == REGISTRYD_OK);
    WANT(left == 0 && length == strlen(wanted) && !memcmp(text, wanted, length));
}

#endif
