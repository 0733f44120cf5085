/* Loaded before the C library: stops, fails or cuts one of the program's calls that write to the disk.
   STATION_AT is the number of the call, pwrite and fsync counted together from 1; STATION_HOW what happens to it:
   kill (SIGKILL right after it), before (SIGKILL right before it), fail (-1 and EIO, nothing written),
   cut (only STATION_CUT bytes are written, by this pwrite and each later one), once (by this pwrite alone),
   torn (by this pwrite, with SIGKILL right after it). STATION_LOG, a file, gets a line for each call.
   STATION_CHANGE names a file whose byte STATION_BYTE is changed by another hand before the pread of number STATION_PREAD. */
#define _GNU_SOURCE
#include <dlfcn.h>
#include <errno.h>
#include <fcntl.h>
#include <signal.h>
#include <stdio.h>
#include <stdlib.h>
#include <string.h>
#include <unistd.h>

static int calls;

static int number(const char *name)
{
    const char *text = getenv(name);
    return text ? atoi(text) : 0;
}

static int how(const char *word)
{
    const char *text = getenv("STATION_HOW");
    return text && strcmp(text, word) == 0;
}

static void note(const char *what, long long at, long long answer)
{
    const char *name = getenv("STATION_LOG");
    char line[80];
    int fd, n;
    if (!name)
        return;
    n = snprintf(line, sizeof line, "%s %lld %lld\n", what, at, answer);
    fd = open(name, O_WRONLY | O_CREAT | O_APPEND, 0644);
    if (fd >= 0) {
        if (write(fd, line, n) != n)
            abort();
        close(fd);
    }
}

/* Is this call of pwrite cut short? */
static int is_cut(int now)
{
    if (how("cut"))
        return calls >= number("STATION_AT");
    return now && (how("once") || how("torn"));
}

static int here(void)
{
    calls++;
    if (calls == number("STATION_AT") && how("before"))
        kill(getpid(), SIGKILL);
    return calls == number("STATION_AT");
}

ssize_t pwrite(int fd, const void *bytes, size_t n, off_t at)
{
    ssize_t (*real)(int, const void *, size_t, off_t) = dlsym(RTLD_NEXT, "pwrite");
    int now = here();
    ssize_t got;
    if (now && how("fail")) {
        errno = EIO;
        return -1;
    }
    if (is_cut(now) && (size_t)number("STATION_CUT") < n)
        n = number("STATION_CUT");
    got = n ? real(fd, bytes, n, at) : 0;
    note("pwrite", at, got);
    if (now && (how("kill") || how("torn")))
        kill(getpid(), SIGKILL);
    return got;
}

ssize_t pwrite64(int fd, const void *bytes, size_t n, off_t at)
{
    return pwrite(fd, bytes, n, at);
}

static void meddle(void)
{
    const char *name = getenv("STATION_CHANGE");
    ssize_t (*real)(int, const void *, size_t, off_t) = dlsym(RTLD_NEXT, "pwrite");
    int fd = open(name, O_WRONLY);
    if (fd < 0 || real(fd, "\x5a", 1, number("STATION_BYTE")) != 1)
        abort();
    close(fd);
}

ssize_t pread(int fd, void *bytes, size_t n, off_t at)
{
    static int preads;
    ssize_t (*real)(int, void *, size_t, off_t) = dlsym(RTLD_NEXT, "pread");
    preads++;
    if (getenv("STATION_CHANGE") && preads == number("STATION_PREAD"))
        meddle();
    return real(fd, bytes, n, at);
}

ssize_t pread64(int fd, void *bytes, size_t n, off_t at)
{
    return pread(fd, bytes, n, at);
}

int fsync(int fd)
{
    int (*real)(int) = dlsym(RTLD_NEXT, "fsync");
    int now = here();
    int answer;
    if (now && how("fail")) {
        errno = EIO;
        return -1;
    }
    answer = real(fd);
    note("fsync", 0, answer);
    if (now && how("kill"))
        kill(getpid(), SIGKILL);
    return answer;
}
