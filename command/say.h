/* What the command says: messages on standard error, results on standard output or in the file of -o, and the exit status. */
#ifndef SAY_H
#define SAY_H

#include "bytes.h"

/* The exit status: done; refused or different; wrong use, or input or output failed. Of several items the highest counts. */
enum { DONE = 0, REFUSED = 1, FAILED = 2 };

/* The subcommand that is carried out, for messages. */
extern const char *carried_out;

void raise_status(int status);
int highest_status(void);

/* Ends the program with the highest status; what was collected for -o is not written. */
void leave(void) __attribute__((noreturn));

/* A line on standard error about a file or a word; the status is raised to the one that is given, and is the answer. */
int complain(int status, const char *of, const char *format, ...) __attribute__((format(printf, 3, 4)));

/* The same with what the system says about its last call, status FAILED. */
int complain_system(const char *of);

/* A line on standard error as it is, below the last message. */
void add_to_message(const char *format, ...) __attribute__((format(printf, 1, 2)));

/* Where results go: standard output, or a file, which is written at the end. */
void results_to(const char *file);
int results_on_terminal(void);

/* Results. */
void put(const void *bytes, size_t n);
void put_format(const char *format, ...) __attribute__((format(printf, 1, 2)));

/* What was put so far goes out, where it goes to standard output. */
void put_through(void);

/* The end: the rest of the results goes out, or into its file; without `keep` a file is left as it was. The exit status. */
int finish(int keep);

/* Writes all bytes; 0 where that failed. */
int write_all(int fd, const void *bytes, size_t n);

#endif
