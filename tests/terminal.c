/* terminal: runs a command whose standard error is a terminal, and prints what it
 * wrote there to standard error. The exit status is the command's.
 *
 *   terminal COMMAND WORDS...
 */

#define _XOPEN_SOURCE 600 /* for posix_openpt */

#include <fcntl.h>
#include <stdlib.h>
#include <sys/wait.h>
#include <unistd.h>

int main(int count, char **words)
{
    int host = posix_openpt(O_RDWR | O_NOCTTY);
    if (count < 2 || host < 0 || grantpt(host) != 0 || unlockpt(host) != 0) {
        return 127;
    }
    pid_t child = fork();
    if (child == 0) {
        int terminal = open(ptsname(host), O_RDWR | O_NOCTTY);
        close(host);
        if (terminal < 0 || dup2(terminal, STDERR_FILENO) < 0) {
            _exit(127);
        }
        close(terminal);
        execvp(words[1], words + 1);
        _exit(127);
    }
    char bytes[512];
    ssize_t came;
    /* The reading ends with an error when nobody has the terminal open any more. */
    while ((came = read(host, bytes, sizeof bytes)) > 0) {
        if (write(STDERR_FILENO, bytes, (size_t)came) != came) {
            return 127;
        }
    }
    int status = 0;
    return waitpid(child, &status, 0) == child && WIFEXITED(status) ? WEXITSTATUS(status) : 127;
}
