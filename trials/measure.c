/* Runs a command with its output thrown away, and tells how that ended.
 *
 *     measure SECONDS KIBIBYTES COMMAND ..
 *
 * The command has a number of seconds of the processor and an amount of address space, and ends with this program. The one line
 * that is told has its status, or below 0 the signal that ended it; its time of the processor in microseconds; and its
 * peak of memory in KiB. The peak counts what starts a command too, so that this is as small as it can be. */
#include <fcntl.h>
#include <signal.h>
#include <stdio.h>
#include <stdlib.h>
#include <sys/prctl.h>
#include <sys/resource.h>
#include <sys/wait.h>
#include <unistd.h>

static void become(char **words) {
    prctl(PR_SET_PDEATHSIG, SIGKILL);
    struct rlimit room;
    room.rlim_cur = room.rlim_max = strtoul(words[2], NULL, 10) * 1024;
    setrlimit(RLIMIT_AS, &room);
    struct rlimit time;
    time.rlim_cur = strtoul(words[1], NULL, 10);
    time.rlim_max = time.rlim_cur + 1;
    setrlimit(RLIMIT_CPU, &time);
    int nowhere = open("/dev/null", O_RDWR);
    for (int stream = 0; stream < 3; stream++)
        dup2(nowhere, stream);
    execvp(words[3], words + 3);
    _exit(127);
}

static long long microseconds(struct timeval time) { return time.tv_sec * 1000000LL + time.tv_usec; }

int main(int count, char **words) {
    if (count < 4)
        return 2;
    pid_t process = fork();
    if (process == 0)
        become(words);
    int status;
    struct rusage usage;
    if (process < 0 || wait4(process, &status, 0, &usage) != process)
        return 1;
    int end = WIFEXITED(status) ? WEXITSTATUS(status) : -WTERMSIG(status);
    printf("%d %lld %ld\n", end, microseconds(usage.ru_utime) + microseconds(usage.ru_stime), usage.ru_maxrss);
    return 0;
}
