/* What a request line says, as far as that matters to who may have to ask it again. */
#ifndef REGISTRYD_SAID_LINE_H
#define REGISTRYD_SAID_LINE_H

#include "files.h"

#include <stdbool.h>
#include <stddef.h>

/* A part of a line: from `at` to `end`. */
struct part {
    const char *at, *end;
};

/* Whether a line asks for what may be asked twice: resolve, check and list lines do. */
bool changes_nothing(struct part line);

/* Puts a line as a journal has it, without its line feed, in place of what stands in `to`; nothing where it is no command. False where
 * there is no memory. */
bool put_journal_line(struct part line, struct bytes *to);

#endif
