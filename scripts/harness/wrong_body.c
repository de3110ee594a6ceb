// Which wrong body is chosen: that of the number in the name by which the program is run, as NAME.body7.
//
// `rt try` runs a program by another name. It is kept then as KEPT, for the runs that follow, and ends.
#define _GNU_SOURCE
#include <errno.h>
#include <stdlib.h>
#include <string.h>
#include <unistd.h>

#define MARK ".body"

static unsigned chosen;

unsigned wrong_body_chosen(void) { return chosen; }

__attribute__((constructor)) static void choose(void) {
    const char *mark = strrchr(program_invocation_name, '.');
    if (!mark || strncmp(mark, MARK, strlen(MARK))) {
        execlp("cp", "cp", program_invocation_name, KEPT, (char *)0);
        _exit(1);
    }
    chosen = atoi(mark + strlen(MARK));
}
