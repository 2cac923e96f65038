// Runs a program, and writes what it took to a file: seconds from start to end, seconds of processor of all its threads, kilobytes at
// the peak, and its status as `wait` has it. usage: cost FILE PROGRAM WORD..
//
// The kernel counts as a program's peak what the process that starts it has at its peak, where that is more. This one is small.
#include <cstdio>
#include <ctime>
#include <sys/resource.h>
#include <sys/wait.h>
#include <unistd.h>

static double now() {
    timespec it;
    clock_gettime(CLOCK_MONOTONIC, &it);
    return static_cast<double>(it.tv_sec) + static_cast<double>(it.tv_nsec) / 1e9;
}

static double seconds(const timeval &it) {
    return static_cast<double>(it.tv_sec) + static_cast<double>(it.tv_usec) / 1e6;
}

int main(int count, char **words) {
    if (count < 3) {
        return 2;
    }
    const double start = now();
    const pid_t child = fork();
    if (child == 0) {
        execvp(words[2], words + 2);
        _exit(127);
    }
    int status = 0;
    rusage used{};
    if (child < 0 || wait4(child, &status, 0, &used) != child) {
        return 1;
    }
    const double end = now();
    std::FILE *file = std::fopen(words[1], "w");
    if (file == nullptr) {
        return 1;
    }
    std::fprintf(file, "%.6f %.6f %ld %d\n", end - start, seconds(used.ru_utime) + seconds(used.ru_stime), used.ru_maxrss, status);
    return std::fclose(file) == 0 ? 0 : 1;
}
