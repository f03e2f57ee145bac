/* The stack that the library needs: this program lends it that of its one thread. */
#define _GNU_SOURCE
#include "stack.h"
#include "options.h"
#include "say.h"
#include <simmergate.h>
#include <sys/resource.h>

#define ELSE 1048576 /* what is not the library's: the command line, the environment, this program */

int have_stack(void) {
    struct rlimit limit;
    rlim_t need = (given.limit == 3072 ? SIMMERGATE_STACK : SIMMERGATE_STACK_16384) + ELSE;
    if (getrlimit(RLIMIT_STACK, &limit) != 0 || limit.rlim_cur >= need) return 1;
    if (limit.rlim_max < need)
        return complain(FAILED, NULL, "at the limit %zu the library needs %lu bytes of stack, and `ulimit -s` allows fewer", given.limit, (unsigned long)need), 0;
    limit.rlim_cur = need;
    return setrlimit(RLIMIT_STACK, &limit) == 0 || (complain_system("ulimit -s"), 0);
}
