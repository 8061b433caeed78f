// Runs a command, and writes what it took to a file: microseconds by the clock, microseconds of all processors, and kilobytes at most in memory.
// measure FILE COMMAND...
#include <sys/resource.h>
#include <sys/wait.h>
#include <unistd.h>

#include <chrono>
#include <cstdio>

namespace {

long microseconds(const timeval &time) { return time.tv_sec * 1000000L + time.tv_usec; }

}  // namespace

int main(int count, char **words) {
    if (count < 3) return 1;
    auto before = std::chrono::steady_clock::now();
    pid_t child = fork();
    if (child < 0) return 1;
    if (child == 0) {
        execvp(words[2], words + 2);
        _exit(127);
    }
    int status = 0;
    rusage used{};
    if (wait4(child, &status, 0, &used) < 0) return 1;
    long clock = std::chrono::duration_cast<std::chrono::microseconds>(std::chrono::steady_clock::now() - before).count();
    FILE *file = fopen(words[1], "a");
    if (file == nullptr) return 1;
    fprintf(file, "%ld %ld %ld\n", clock, microseconds(used.ru_utime) + microseconds(used.ru_stime), used.ru_maxrss);
    fclose(file);
    return WIFEXITED(status) ? WEXITSTATUS(status) : 1;
}
