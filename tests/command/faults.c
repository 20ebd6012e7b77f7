/* Put before the C library by LD_PRELOAD: the calls of `read` from standard input and of `write` to standard output, each by a script, from the variables
 * FAULTS_READ and FAULTS_WRITE. A script is words, one for each call in order:
 *     a number              the call moves at most so many bytes; for a write, 0 answers that it took none
 *     all                   the call is made as it is
 *     an error's name       the call moves nothing and fails with it: EINTR, EAGAIN, EIO, ENOSPC
 *     again                 the script starts over
 * After the last word calls are made as they are. A word that is none of these ends the program with status 99. FAULTS_COUNT names a file to which each call
 * appends a byte, r or w: how many there were. */
#define _GNU_SOURCE
#include <dlfcn.h>
#include <errno.h>
#include <fcntl.h>
#include <stdlib.h>
#include <string.h>
#include <unistd.h>

typedef ssize_t call(int, void *, size_t);

struct script {
    const char *variable, *symbol, *words, *at;
    call *real;
};

static struct script reads = {"FAULTS_READ", "read", 0, 0, 0};
static struct script writes = {"FAULTS_WRITE", "write", 0, 0, 0};

static void bad_script(void) { _exit(99); }

/* The next word of the script, and its length; 0 after the last one. */
static size_t next_word(struct script *s, const char **word) {
    for (int again = 0;; again = 1) {
        while (*s->at == ' ') s->at++;
        const char *begin = s->at;
        while (*s->at && *s->at != ' ') s->at++;
        size_t n = s->at - begin;
        if (n == 5 && !memcmp(begin, "again", 5)) {
            if (again) bad_script();
            s->at = s->words;
            continue;
        }
        *word = begin;
        return n;
    }
}

static int error_named(const char *word, size_t n) {
    static const struct { const char *name; int error; } known[] = {{"EINTR", EINTR}, {"EAGAIN", EAGAIN}, {"EIO", EIO}, {"ENOSPC", ENOSPC}};
    for (size_t k = 0; k < sizeof known / sizeof *known; k++)
        if (strlen(known[k].name) == n && !memcmp(known[k].name, word, n)) return known[k].error;
    return 0;
}

static void count(char what) {
    const char *file = getenv("FAULTS_COUNT");
    if (!file) return;
    int fd = open(file, O_WRONLY | O_APPEND | O_CREAT | O_CLOEXEC, 0600);
    if (fd < 0 || writes.real(fd, &what, 1) != 1) bad_script();
    close(fd);
}

static void prepare(struct script *s) {
    if (s->real) return;
    s->real = (call *)dlsym(RTLD_NEXT, s->symbol);
    s->words = getenv(s->variable);
    if (!s->words) s->words = "";
    s->at = s->words;
}

static ssize_t by_script(struct script *s, int ours, int fd, void *bytes, size_t n) {
    prepare(&reads);
    prepare(&writes);
    if (fd != ours) return s->real(fd, bytes, n);
    count(*s->symbol);
    const char *word;
    size_t length = next_word(s, &word);
    if (length == 0 || (length == 3 && !memcmp(word, "all", 3))) return s->real(fd, bytes, n);
    int error = error_named(word, length);
    if (error) {
        errno = error;
        return -1;
    }
    char *end;
    size_t most = strtoul(word, &end, 10);
    if (end != word + length) bad_script();
    if (most == 0 && s == &writes) return 0;
    return s->real(fd, bytes, n < most ? n : most);
}

ssize_t read(int fd, void *bytes, size_t n) { return by_script(&reads, STDIN_FILENO, fd, bytes, n); }

ssize_t write(int fd, const void *bytes, size_t n) { return by_script(&writes, STDOUT_FILENO, fd, (void *)bytes, n); }
