/* Makes the calls of a list in a new folder: of each a letter, the number that the file had, two numbers, and a path in
 * that folder. A call that the system refuses is no fault, since the list has calls that were refused. What they took of
 * the processor stands on standard error, in milliseconds.
 *
 * replay LIST FOLDER      cc -O2 -o replay replay.c
 */
#define _GNU_SOURCE
#include <fcntl.h>
#include <stdio.h>
#include <stdlib.h>
#include <sys/resource.h>
#include <sys/stat.h>
#include <unistd.h>

typedef struct { char letter; int file; long first, second; char path[64]; } Call;

static char bytes[65536];
static int files[1 << 16];

static void make(const Call *call, int top)
{
    int file = files[call->file & 0xffff];
    struct statx about;
    switch (call->letter) {
    case 'm': mkdirat(top, call->path, 0777); break;
    case 's': statx(top, call->path, 0, STATX_ALL, &about); break;
    case 'c': files[call->file] = openat(top, call->path, O_RDWR | O_CREAT | O_NOCTTY | O_CLOEXEC, 0666); break;
    case 'd':
        file = openat(top, call->path, O_RDWR | O_NOCTTY | O_CLOEXEC);
        files[call->file] = file >= 0 ? file : openat(top, call->path, O_RDONLY | O_NOCTTY | O_CLOEXEC);
        break;
    case 'w': if (pwrite(file, bytes, call->first, call->second) < 0) return; break;
    case 'r': if (pread(file, bytes, call->first, call->second) < 0) return; break;
    case 't': if (ftruncate(file, call->first) < 0) return; break;
    case 'f': fsync(file); break;
    case 'x': close(file); break;
    case 'o': if (write(1, bytes, call->first) < 0) return; break;
    }
}

static double processor(void)
{
    struct rusage took;
    getrusage(RUSAGE_SELF, &took);
    return (took.ru_utime.tv_sec + took.ru_stime.tv_sec) * 1e3
           + (took.ru_utime.tv_usec + took.ru_stime.tv_usec) / 1e3;
}

int main(int count, char **words)
{
    size_t room = 1 << 16, len = 0;
    Call *calls = malloc(room * sizeof *calls);
    FILE *list = count == 3 ? fopen(words[1], "r") : NULL;
    if (!list || !calls || mkdir(words[2], 0777)) return 2;
    int top = open(words[2], O_RDONLY | O_DIRECTORY);
    for (;; len++) {
        if (len == room && !(calls = realloc(calls, (room *= 2) * sizeof *calls))) return 2;
        Call *call = &calls[len];
        if (fscanf(list, " %c %d %ld %ld %63s", &call->letter, &call->file, &call->first, &call->second, call->path) != 5)
            break;
    }
    fclose(list);
    double began = processor();
    for (size_t i = 0; i < len; i++) make(&calls[i], top);
    fprintf(stderr, "%.3f\n", processor() - began);
    return 0;
}
