/*
 * Starts programs as child processes, with given ends of pipes or files as their standard input and output. The
 * sources that include it ask for POSIX.
 */
#ifndef PROGRAM_H
#define PROGRAM_H

#include <fcntl.h>
#include <signal.h>
#include <stdio.h>
#include <stdlib.h>
#include <sys/wait.h>
#include <unistd.h>

/* A program that runs for so many seconds is ended by SIGALRM, and the test with it. */
enum { PROGRAM_SECONDS = 20, NO_END = -1 };

static inline void program_trouble(const char *what)
{
    perror(what);
    exit(2);
}

/* Opens a pipe, ends[0] for reading and ends[1] for writing, that a started program doesn't inherit. */
static inline void program_pipe(int ends[2])
{
    if (pipe(ends) != 0 || fcntl(ends[0], F_SETFD, FD_CLOEXEC) != 0 || fcntl(ends[1], F_SETFD, FD_CLOEXEC) != 0)
        program_trouble("pipe");
}

static inline void program_end(int end, int standard)
{
    if (end == NO_END)
        close(standard);
    else
        dup2(end, standard);
}

/* Starts a program; its standard error goes where its output goes. NO_END stands for a closed one. */
static inline pid_t program_start(const char *path, int input, int output)
{
    pid_t child = fork();
    if (child < 0)
        program_trouble("fork");
    if (child > 0)
        return child;
    program_end(input, STDIN_FILENO);
    program_end(output, STDOUT_FILENO);
    program_end(output, STDERR_FILENO);
    alarm(PROGRAM_SECONDS);
    execl(path, path, (char *)NULL);
    _exit(127);
}

/* Waits for the end of a program; 0 where it exits with status 0. */
static inline int program_wait(pid_t child)
{
    int status;
    if (waitpid(child, &status, 0) != child)
        program_trouble("waitpid");
    if (WIFSIGNALED(status) && WTERMSIG(status) == SIGALRM) {
        fputs("a program doesn't end\n", stderr);
        exit(2);
    }
    return status;
}

#endif
