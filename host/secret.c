#define _DEFAULT_SOURCE
#include "secret.h"

#include <errno.h>
#include <signal.h>
#include <stdio.h>
#include <string.h>
#include <termios.h>
#include <unistd.h>

#include "bytes.h"
#include "keys.h"
#include "say.h"

/* Reads a line's characters, byte by byte so that none stays in a buffer. Gives 1 where the line was there and fitted,
 * 0 where not, -1 where reading failed. */
static int read_line(char *line, size_t room) {
    size_t length = 0, fits = 1;
    char c;
    ssize_t got;
    while ((got = read(STDIN_FILENO, &c, 1)) == 1 && c != '\n') {
        if (length + 1 < room && c != '\0')
            line[length++] = c;
        else
            fits = 0;
    }
    wipe(&c, 1);
    line[length] = '\0';
    return got < 0 ? -1 : fits && length > 0;
}

/* Hides what is typed at the terminal; gives whether it is hidden. The C library is content with a part of what it was
 * to set, so the terminal is asked again. A stop waits until it is shown again. */
static int hide(const struct termios *shown, sigset_t *before) {
    struct termios hidden = *shown;
    sigset_t stop;
    sigemptyset(&stop);
    sigaddset(&stop, SIGTSTP);
    sigprocmask(SIG_BLOCK, &stop, before);
    hidden.c_lflag &= ~(tcflag_t)ECHO;
    return tcsetattr(STDIN_FILENO, TCSAFLUSH, &hidden) == 0 && tcgetattr(STDIN_FILENO, &hidden) == 0 &&
           (hidden.c_lflag & ECHO) == 0;
}

/* Sets the terminal back; gives whether that could be done. */
static int show(const struct termios *shown, const sigset_t *before) {
    int set = tcsetattr(STDIN_FILENO, TCSAFLUSH, shown) == 0;
    sigprocmask(SIG_SETMASK, before, NULL);
    return set;
}

int read_secret(const char *what, uint8_t *bytes, size_t most, size_t *length) {
    char line[2 * TOP_MOST + 1];
    struct termios shown;
    sigset_t before;
    int terminal = tcgetattr(STDIN_FILENO, &shown) == 0;
    *length = 0;
    if (terminal && !hide(&shown, &before)) {
        show(&shown, &before);
        return complain(FAILED, "the terminal does not hide what is typed: nothing is read");
    }
    if (terminal)
        fprintf(stderr, "%s: ", what);
    int got = read_line(line, sizeof line), error = errno;
    if (got > 0)
        *length = read_hex(line, bytes, most);
    wipe(line, sizeof line);
    if (terminal)
        fputc('\n', stderr);
    if (terminal && !show(&shown, &before))
        complain(FAILED, "the terminal may still hide what is typed");
    return got < 0 ? complain(FAILED, "cannot read standard input: %s", strerror(error)) : DONE;
}
