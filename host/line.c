/* The line program: what a host runs beside the payment line. `line --help` is its manual. */
#define _DEFAULT_SOURCE
#include <fcntl.h>
#include <signal.h>
#include <stdio.h>
#include <string.h>
#include <unistd.h>

#include "bytes.h"
#include "commands.h"
#include "say.h"
#include "store.h"

/* in two parts: C promises no longer strings */
static const char help[] =
    "usage: line COMMAND IMAGE [WORD..]\n"
    "\n"
    "IMAGE is the file that keeps the card's partner table; it is exactly the stored image and holds keys in the\n"
    "clear. A change is written to IMAGE.line-new, forced to the disk and renamed, so a cut leaves the old image or\n"
    "the new one; no IMAGE may have that ending. Mode, owner and group of IMAGE are carried over, or the change is\n"
    "refused; so is the change of an image with a second name (a hard link). Several commands may be at one image at\n"
    "once: each waits for its turn.\n"
    "\n"
    "Custodians\n"
    "  start IMAGE OWN            a new card with the identity OWN and no partners; IMAGE must not be there yet\n"
    "  load IMAGE PARTNER NAME    a partner with the key name NAME and a top key from two custodians: their\n"
    "                             components on standard input, one to a line, both of 16 hex digits (a single\n"
    "                             key) or both of 32 (a pair). Each is of odd parity; their exclusive-or, made odd,\n"
    "                             is the key. Nothing that is typed at a terminal is shown; a terminal that cannot\n"
    "                             hide it is not read. The check value that is printed is to be the same at both ends\n"
    "  load IMAGE PARTNER NAME --key HEX\n"
    "                             the same with the whole key, for tests: see below on keys\n"
    "  remove IMAGE PARTNER       takes a partner out, with its keys and counts\n"
    "  list IMAGE                 the partners: key name, form, phase, counts, number of data keys and their names\n"
    "\n"
    "The desk\n"
    "  ksm IMAGE PARTNER --key HEX [OF THE KEY] [--key HEX [OF THE KEY]] [--iv HEX | --iv-enciphered HEX] [--date D]\n"
    "      [--notarized]\n"
    "                             builds a key message and prints it. Keep it: a resend is the same bytes again.\n"
    "                             HEX is 16 hex digits, or - for the next line of standard input. Of the key before:\n"
    "                               --p          marked P: it has to be of odd parity\n"
    "                               --idk1 NAME  its name is written\n"
    "                               --idk2       the name of the top key is written\n"
    "                             The IV is given in the clear and goes plain or enciphered; D is YYMMDDHHMMSS.\n"
    "                             --notarized writes NOS and seals the keys for this card and this partner alone, as\n"
    "                             X9.17 has it in section 7.5; `run` takes messages with NOS and without it\n"
    "  rsi IMAGE PARTNER [SVR]    builds a request for service and prints it. SVR is KK or *KK, KD, IV, in this\n"
    "                             order and joined by dots, or left out: one data key is always meant\n"
    "  give-up IMAGE PARTNER      gives up on the key message that waits for its answer\n"
    "  ask IMAGE PARTNER          one partner's entry, with the check values of its data keys\n"
    "\n"
    "The line\n"
    "  run IMAGE                  receives messages on standard input, one to a line, and prints the replies on\n"
    "                             standard output, each once the image is kept. Standard error has for each line\n"
    "                             its number, the card's answer, and what the message told: the service wanted,\n"
    "                             the IV in the clear and the date, or the letters of an error. It stops at a line\n"
    "                             whose reply or account could not be written, and names it\n";

static const char help_behind[] =
    "\n"
    "Keys. No command prints a key; a check value is the first three bytes of the zero block enciphered under it.\n"
    "A key on the command line is seen by every user of the machine and stays in the shell's history: use - and\n"
    "standard input. An ESM carries no MAC: whoever can write to the line can break a waiting exchange, and spend\n"
    "the send count with a CTP of 99999999. A key message of two equal keys needs no top key, since its MAC key is\n"
    "zero: one with a CTP of 99999998 ends what is accepted from that partner.\n"
    "\n"
    "Exit status: 0 done; 1 the card refused, or trouble with a file, and nothing is changed; 2 the command was not\n"
    "understood; 3 IMAGE is changed, but what the command had to say or to send could not be written, or a cut may\n"
    "undo the change: standard error says what. `run` ends with 0 also where the card refused a message; its 1 and 3\n"
    "are about the line that it names, and what the lines before it changed stays changed. A signal that asks a\n"
    "command to end is heeded where it waits; `run` ends behind the line that it is at.\n";

static const struct command {
    const char *name;
    int (*act)(int count, char **words);
    int least, most; /* words behind the name */
} commands[] = {
    {"start", do_start, 2, 2},     {"load", do_load, 3, 5}, {"remove", do_remove, 2, 2},
    {"list", do_list, 1, 1},       {"ksm", do_ksm, 2, 64},  {"rsi", do_rsi, 2, 3},
    {"give-up", do_give_up, 2, 2}, {"ask", do_ask, 2, 2},   {"run", do_run, 1, 1},
};

static const struct command *find_command(const char *name) {
    for (size_t i = 0; i < sizeof commands / sizeof *commands; i++)
        if (strcmp(commands[i].name, name) == 0)
            return &commands[i];
    return NULL;
}

volatile sig_atomic_t ended_by;

/* a second later once more, for the program may be about to wait */
static void note_end(int number) {
    if (number != SIGALRM)
        ended_by = number;
    alarm(1);
}

/* A reader that has gone and a file at its limit are errors of writing, and said so. A signal that asks the program to
 * end makes its waiting fail; one that is ignored stays so. */
static void set_signals(void) {
    static const int ends[] = {SIGALRM, SIGHUP, SIGINT, SIGQUIT, SIGTERM};
    struct sigaction old, noted = {.sa_handler = note_end};
    signal(SIGPIPE, SIG_IGN);
    signal(SIGXFSZ, SIG_IGN);
    for (size_t i = 0; i < sizeof ends / sizeof *ends; i++)
        if (sigaction(ends[i], NULL, &old) == 0 && old.sa_handler != SIG_IGN)
            sigaction(ends[i], &noted, NULL);
}

/* A standard stream that was closed is opened so that its use fails: else the image would get its number, and words
 * would be written into it. */
static int open_streams(void) {
    for (int stream = 0; stream < 3; stream++)
        if (fcntl(stream, F_GETFD) < 0 && open("/dev/null", stream == 0 ? O_WRONLY : O_RDONLY) != stream)
            return 0;
    return 1;
}

static int act(int argc, char **argv) {
    if (argc < 2)
        return complain(MISUSED, "no command; line --help tells all");
    if (strcmp(argv[1], "--help") == 0) {
        fputs(help, stdout);
        fputs(help_behind, stdout);
        return DONE;
    }
    const struct command *command = find_command(argv[1]);
    if (command == NULL)
        return complain(MISUSED, "%s: no such command; line --help tells all", argv[1]);
    if (argc - 2 < command->least || argc - 2 > command->most)
        return complain(MISUSED, "%s: too %s words; line --help tells all", argv[1],
                        argc - 2 < command->least ? "few" : "many");
    if (store_may_have(argv[2]) != DONE)
        return FAILED;
    return command->act(argc - 2, argv + 2);
}

int main(int argc, char **argv) {
    if (!open_streams())
        return FAILED;
    if (!forbid_core_dump())
        return complain(FAILED, "cannot forbid a core dump, which would show keys");
    set_signals();
    wipe_stack(); /* before there are keys, so that its functions are found by the loader without any in a register */
    int status = act(argc, argv);
    wipe_stack();
    for (int i = 1; i < argc; i++)
        wipe(argv[i], strlen(argv[i]));
    if ((fflush(stdout) != 0 || ferror(stdout)) && status == DONE)
        status = complain(FAILED, "cannot write standard output");
    if (ended_by && status == FAILED) {
        signal(ended_by, SIG_DFL);
        raise(ended_by);
    }
    return status;
}
