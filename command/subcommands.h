/* What each subcommand does, by the options that were given. The answer: whether the file of -o is to be written. */
#ifndef SUBCOMMANDS_H
#define SUBCOMMANDS_H

int run_shorten(void);
int run_value(void);
int run_table(void);
int run_text(void);
int run_tree(void);
int run_differ(void);
int run_open(void);
int run_site(void);
int run_takeover(void);
int run_link(void);
int run_settings(void);

#endif
