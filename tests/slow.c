/*
 * slow PROGRAM WORDS..: runs a program whose standard output is a pipe that does not block, reads it slowly, and writes what came to standard output. It
 * ends with the program's status. With SLOW_CLOSE set, it closes the pipe after the first bytes.
 */
#include <fcntl.h>
#include <stdlib.h>
#include <sys/wait.h>
#include <time.h>
#include <unistd.h>

static void pause_a_little(void)
{
    struct timespec two_ms = {0, 2000000};
    nanosleep(&two_ms, NULL);
}

int main(int count, char **words)
{
    char room[4096];
    int ends[2], status;
    ssize_t got;
    pid_t child;
    if (count < 2 || pipe(ends) != 0 || fcntl(ends[1], F_SETFL, O_NONBLOCK) != 0)
        return 99;
    child = fork();
    if (child == 0) {
        dup2(ends[1], STDOUT_FILENO);
        close(ends[0]);
        close(ends[1]);
        execv(words[1], words + 1);
        _exit(98);
    }
    close(ends[1]);
    while ((got = read(ends[0], room, sizeof room)) > 0) {
        if (write(STDOUT_FILENO, room, (size_t)got) != got)
            return 97;
        if (getenv("SLOW_CLOSE") != NULL)
            break;
        pause_a_little();
    }
    close(ends[0]);
    waitpid(child, &status, 0);
    return WIFEXITED(status) ? WEXITSTATUS(status) : 96;
}
