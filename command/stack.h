/* The stack that the library needs. */
#ifndef STACK_H
#define STACK_H

/* Whether there is enough at the limit that is given, if need be after asking for more; 0 after a message. */
int have_stack(void);

#endif
