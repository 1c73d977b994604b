/* The commands of the line program. Each is given the words behind its name and gives the exit status. */
#ifndef HOST_COMMANDS_H
#define HOST_COMMANDS_H

#include <signal.h>

/* a word as the card is lent it */
#define TEXT(word) (const uint8_t *)(word), strlen(word)

/* The signal that has asked the program to end, or 0. Where the program waits, for its turn, for a line or for a
 * reader, the waiting fails then, so that it ends with its keys wiped. */
extern volatile sig_atomic_t ended_by;

/* custodians */
int do_start(int count, char **words);
int do_load(int count, char **words);
int do_remove(int count, char **words);
int do_list(int count, char **words);

/* the desk */
int do_ksm(int count, char **words);
int do_rsi(int count, char **words);
int do_give_up(int count, char **words);
int do_ask(int count, char **words);

/* the line */
int do_run(int count, char **words);

#endif
