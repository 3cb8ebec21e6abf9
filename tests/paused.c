/* paused PROGRAM: runs a program whose standard input is a pipe in non-blocking mode. What this
 * program reads from its own standard input goes into the pipe first, and then the writer pauses:
 * it keeps the pipe open and writes no more until the program has ended. At most a pipe's room
 * (64 KB on Linux) is taken. */
#include <fcntl.h>
#include <stdio.h>
#include <sys/wait.h>
#include <unistd.h>

int main(int argc, char **argv)
{
    char bytes[60000];
    int ends[2];
    size_t length = fread(bytes, 1, sizeof bytes, stdin);
    if (argc != 2 || pipe(ends) || fcntl(ends[0], F_SETFL, O_NONBLOCK))
        return 2;
    if (write(ends[1], bytes, length) != (ssize_t)length)
        return 2;
    pid_t child = fork();
    if (child == 0) {
        dup2(ends[0], 0);
        close(ends[0]);
        close(ends[1]);
        execv(argv[1], argv + 1);
        _exit(2);
    }
    return waitpid(child, NULL, 0) == child ? 0 : 2;
}
