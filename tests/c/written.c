/* written HOW FILE: the command's writing of a file, cut short at the moment when all bytes stand in the temporary file: `interrupted` by a signal, or
   `failed` with a full disk; `whole` goes on. The file must be as it was, or new, and nothing else may be left beside it: tests/command looks. */
#include "../../command/say.h"
#include "../../command/write.h"
#include <errno.h>
#include <signal.h>
#include <string.h>

static const char *how;

/* In place of the C library's: the command calls it when the temporary file is filled. */
int fsync(int fd) {
    (void)fd;
    if (strcmp(how, "interrupted") == 0) raise(SIGTERM);
    if (strcmp(how, "failed") == 0) return errno = 28, -1; /* no space left on the device */
    return 0;
}

int main(int words, char **word) {
    if (words != 3) return 2;
    how = word[1];
    take_signals();
    write_whole(word[2], (const uint8_t *)"new\n", 4);
    return finish(1);
}
