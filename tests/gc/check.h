/* A test says what it saw, and ends with its counts. */
#ifndef CHECK_H
#define CHECK_H
#include <stdio.h>
#include <stdlib.h>
#include <string.h>
#include <sys/wait.h>
#include <unistd.h>

static int passed, failed;

static inline void check_that(const char *what, int is_so)
{
    if (is_so) {
        passed++;
        return;
    }
    failed++;
    printf("failed: %s\n", what);
}
#define CHECK(condition) check_that(#condition, (condition) ? 1 : 0)

static inline int check_ends(void)
{
    printf("%d passed, %d failed\n", passed, failed);
    return failed != 0;
}

/* Runs the body in a child of its own, and answers whether it was aborted with these words on standard error. */
static inline int stops_with(void (*body)(void), const char *words)
{
    char said[4096] = "";
    size_t length = 0;
    int ends[2], status;
    if (pipe(ends) != 0) return 0;
    fflush(stdout);
    pid_t child = fork();
    if (child == 0) {
        dup2(ends[1], 2);
        close(ends[0]);
        body();
        _exit(0);
    }
    close(ends[1]);
    for (ssize_t n; length < sizeof said - 1 && (n = read(ends[0], said + length, sizeof said - 1 - length)) > 0;) length += (size_t)n;
    close(ends[0]);
    waitpid(child, &status, 0);
    return WIFSIGNALED(status) && WTERMSIG(status) == SIGABRT && strstr(said, words) != NULL;
}

/* Runs the body in a child, and answers its status. What the child says is said, and the signal that ended it. */
static inline int status_of(int (*body)(void))
{
    int status;
    fflush(stdout);
    pid_t child = fork();
    if (child == 0) {
        status = body();
        fflush(stdout);
        _exit(status);
    }
    waitpid(child, &status, 0);
    if (WIFSIGNALED(status)) printf("ended by signal %d\n", WTERMSIG(status));
    return WIFEXITED(status) ? WEXITSTATUS(status) : -1;
}
#endif
