/* What the example programs share: a call that fails ends the program. */
#ifndef MUST_H
#define MUST_H

#include <mortarpink.h>

#include <stdio.h>
#include <stdlib.h>

/* Ends the program with the text of a status, unless it is MORTARPINK_DONE. */
static void must(mortarpink_status status) {
    if (status == MORTARPINK_DONE) return;
    fprintf(stderr, "%s\n", mortarpink_status_text(status));
    exit(1);
}

#endif
