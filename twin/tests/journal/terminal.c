/* terminal PROGRAM TYPED: runs the program at a terminal of its own, types the text there and prints what the terminal shows. */

#define _XOPEN_SOURCE 600

#include <fcntl.h>
#include <stdio.h>
#include <stdlib.h>
#include <string.h>
#include <sys/types.h>
#include <sys/wait.h>
#include <termios.h>
#include <unistd.h>

/* After so many seconds the test has failed; the terminal's hang-up ends a program that still reads. */
enum { MOST_SECONDS = 20 };

static void require(int holds, const char *what) {
    if (!holds) {
        perror(what);
        exit(2);
    }
}

/* The program's side of the terminal, which shows what is printed and nothing else. */
static int opened_side(int terminal) {
    struct termios settings;
    int side = open(ptsname(terminal), O_RDWR | O_NOCTTY);
    require(side >= 0, "the terminal");
    require(tcgetattr(side, &settings) == 0, "its settings");
    settings.c_lflag &= ~(tcflag_t)ECHO;
    settings.c_oflag &= ~(tcflag_t)OPOST;
    require(tcsetattr(side, TCSANOW, &settings) == 0, "its settings");
    return side;
}

/* A process of its own session, whose terminal is the first that it opens. It must not hold the other side, or no hang-up comes. */
static void become(const char *program, int terminal, int side) {
    require(setsid() >= 0, "a session");
    require(open(ptsname(terminal), O_RDWR) >= 0, "the terminal");
    close(terminal);
    for (int file = STDIN_FILENO; file <= STDERR_FILENO; file++) {
        require(dup2(side, file) == file, "a standard file");
    }
    execl(program, program, (char *)NULL);
    require(0, program);
}

int main(int count, char **words) {
    char shown[4096];
    ssize_t length;
    int status;
    require(count == 3, "a program and a text");
    int terminal = posix_openpt(O_RDWR | O_NOCTTY);
    require(terminal >= 0 && grantpt(terminal) == 0 && unlockpt(terminal) == 0, "a terminal");
    int side = opened_side(terminal);
    pid_t child = fork();
    require(child >= 0, "a process");
    if (child == 0) {
        become(words[1], terminal, side);
    }
    close(side);
    alarm(MOST_SECONDS);
    require(write(terminal, words[2], strlen(words[2])) == (ssize_t)strlen(words[2]), "typing");
    while ((length = read(terminal, shown, sizeof shown)) > 0) {
        require(fwrite(shown, 1, (size_t)length, stdout) == (size_t)length, "printing");
    }
    require(waitpid(child, &status, 0) == child, "the program's end");
    return status == 0 ? 0 : 2;
}
