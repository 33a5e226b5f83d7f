/* Makes one allocation of memory fail: the one with the number REFUSE, counted from 1. The file named by REFUSED is
 * made then. If the program ends by itself, the number of allocations is written to the file named by ASKED. To be
 * loaded before a program's own library (LD_PRELOAD).
 *
 * With EACH, a number, none fails in the program. From that allocation on, up to the one with the number LAST, a copy
 * of the process goes on for each, in which that one fails, while the program waits. What the copy prints is in the
 * file TRIED.NUMBER, after what was printed before, for which standard output has to be a file that can be read. A line
 * on standard error names each copy that doesn't end with status 0. */
#include <errno.h>
#include <fcntl.h>
#include <stdio.h>
#include <stdlib.h>
#include <sys/wait.h>
#include <unistd.h>

void *__libc_malloc(size_t);
void *__libc_realloc(void *, size_t);

static long asked;
static int is_copy;

/* The number in this variable, 0 if there is none. */
static long number_in(const char *variable) {
    const char *number = getenv(variable);
    return number == NULL ? 0 : atol(number);
}

/* Allocates no memory, so that it isn't counted. */
static void note(const char *variable, long number) {
    char text[32];
    const char *name = getenv(variable);
    int file = name == NULL ? -1 : open(name, O_WRONLY | O_CREAT | O_TRUNC, 0644);
    int length = snprintf(text, sizeof text, "%ld\n", number);
    if (file >= 0 && write(file, text, (size_t)length) == length) {
        close(file);
    }
}

/* What the copy prints goes to a file of its own, after what was printed before. */
static void print_apart(void) {
    char name[4096], octets[4096];
    off_t printed = lseek(1, 0, SEEK_CUR);
    ssize_t count;
    snprintf(name, sizeof name, "%s.%ld", getenv("TRIED"), asked);
    int file = open(name, O_WRONLY | O_CREAT | O_TRUNC, 0644);
    for (off_t at = 0; at < printed; at += count) {
        size_t most = printed - at < (off_t)sizeof octets ? (size_t)(printed - at) : sizeof octets;
        count = pread(1, octets, most, at);
        if (count <= 0 || write(file, octets, (size_t)count) != count) {
            _exit(98);
        }
    }
    if (printed < 0 || dup2(file, 1) != 1) {
        _exit(98);
    }
}

/* Goes on in a copy of the process, in which this allocation fails. Returns whether this is the copy. */
static int tried(void) {
    int status = 0;
    pid_t copy = fork();
    if (copy == 0) {
        is_copy = 1;
        print_apart();
        return 1;
    }
    if (copy < 0 || waitpid(copy, &status, 0) != copy || status != 0) {
        dprintf(2, "allocation %ld: status %d\n", asked, status);
    }
    return 0;
}

static int refused(void) {
    asked += 1;
    long first = number_in("EACH");
    if (first != 0 && !is_copy && asked >= first && asked <= number_in("LAST")) {
        if (!tried()) {
            return 0;
        }
    } else if (asked == number_in("REFUSE")) {
        note("REFUSED", asked);
    } else {
        return 0;
    }
    errno = ENOMEM;
    return 1;
}

void *malloc(size_t size) {
    return refused() ? NULL : __libc_malloc(size);
}

void *realloc(void *block, size_t size) {
    return refused() ? NULL : __libc_realloc(block, size);
}

__attribute__((destructor)) static void tell(void) {
    if (!is_copy) {
        note("ASKED", asked);
    }
}
