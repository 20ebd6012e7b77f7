/* pipes PROGRAM: runs PROGRAM between two pipes of one page whose ends at PROGRAM do not wait, so that its reads and writes answer EAGAIN. Standard input is handed
 * to it in pieces of 1 to 97 bytes, each when it has taken the one before; what it writes is taken from the pipe only when no more comes. That a pipe stays as it is
 * for some milliseconds is no more than a guess that PROGRAM met it so: the bytes do not depend on it. Ends with PROGRAM's status. */
#define _GNU_SOURCE
#include <fcntl.h>
#include <stdio.h>
#include <stdlib.h>
#include <sys/ioctl.h>
#include <sys/wait.h>
#include <time.h>
#include <unistd.h>

static void must(int ok, const char *what) {
    if (ok) return;
    perror(what);
    exit(98);
}

static void rest(void) {
    struct timespec t = {0, 1000000};
    nanosleep(&t, 0);
}

static int held(int fd) {
    int n;
    must(ioctl(fd, FIONREAD, &n) == 0, "FIONREAD");
    return n;
}

static void no_waiting(int fd) { must(fcntl(fd, F_SETFL, fcntl(fd, F_GETFL) | O_NONBLOCK) == 0, "O_NONBLOCK"); }

/* Hands on what the pipe holds. */
static void drain(int fd) {
    char bytes[4096];
    ssize_t n;
    while (held(fd) > 0) {
        n = read(fd, bytes, sizeof bytes);
        must(n > 0, "read");
        must(fwrite(bytes, 1, n, stdout) == (size_t)n, "fwrite");
    }
}

int main(int argc, char **argv) {
    int in[2], out[2], status, last = 0, same = 0, ended = 0;
    size_t piece = 1;
    must(argc == 2, "usage: pipes PROGRAM");
    must(pipe(in) == 0 && pipe(out) == 0, "pipe");
    fcntl(in[1], F_SETPIPE_SZ, 4096);
    fcntl(out[1], F_SETPIPE_SZ, 4096);
    no_waiting(in[0]);
    no_waiting(out[1]);
    pid_t program = fork();
    must(program >= 0, "fork");
    if (program == 0) {
        must(dup2(in[0], 0) == 0 && dup2(out[1], 1) == 1, "dup2");
        close(in[0]), close(in[1]), close(out[0]), close(out[1]);
        execl(argv[1], argv[1], (char *)0);
        must(0, argv[1]);
    }
    close(out[1]);
    for (;;) {
        pid_t gone = waitpid(program, &status, WNOHANG);
        must(gone >= 0, "waitpid");
        if (gone == program) break;
        if (!ended && held(in[0]) == 0) {
            char bytes[97];
            size_t n = fread(bytes, 1, piece, stdin);
            if (piece % 8 == 0) rest();
            if (n > 0) must(write(in[1], bytes, n) == (ssize_t)n, "write");
            if (n == 0) ended = 1, close(in[1]);
            piece = piece % 97 + 1;
            continue;
        }
        int now = held(out[0]);
        same = now == last ? same + 1 : 0;
        last = now;
        if (now > 0 && same > 4) drain(out[0]), same = 0;
        rest();
    }
    drain(out[0]);
    must(fflush(stdout) == 0, "fflush");
    return WIFEXITED(status) ? WEXITSTATUS(status) : 97;
}
