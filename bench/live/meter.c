// The figures of processes, and of the machine.
#define _GNU_SOURCE
#include "live.h"

#include <dirent.h>
#include <stdio.h>
#include <stdlib.h>
#include <string.h>
#include <time.h>
#include <unistd.h>

static double seconds_of(clockid_t clock) {
    struct timespec time = {0};
    clock_gettime(clock, &time);
    return time.tv_sec + time.tv_nsec / 1e9;
}

static double cpu_of(int pid) {
    clockid_t clock;
    return clock_getcpuclockid(pid, &clock) == 0 ? seconds_of(clock) : 0;
}

// The sum of the numbers in the lines `NAME: NUMBER` of a file whose names contain this one.
static uint64_t number_in(const char *path, const char *name) {
    char line[256];
    uint64_t sum = 0;
    FILE *file = fopen(path, "r");
    if (!file) return 0;
    while (fgets(line, sizeof line, file))
        if (strstr(line, name)) sum += strtoull(strchr(line, ':') + 1, NULL, 10);
    fclose(file);
    return sum;
}

// The context switches of all threads of a process.
static uint64_t switches_of(int pid) {
    char path[300];
    uint64_t sum = 0;
    snprintf(path, sizeof path, "/proc/%d/task", pid);
    DIR *tasks = opendir(path);
    if (!tasks) return 0;
    for (struct dirent *task; (task = readdir(tasks));) {
        if (task->d_name[0] == '.') continue;
        snprintf(path, sizeof path, "/proc/%d/task/%s/status", pid, task->d_name);
        sum += number_in(path, "ctxt_switches:");
    }
    closedir(tasks);
    return sum;
}

// The CPU seconds of the machine.
static void sample_machine(struct sample *sample) {
    double user = 0, nice = 0, system = 0, idle, waits, irq = 0, soft = 0, stolen = 0, tick = 1.0 / sysconf(_SC_CLK_TCK);
    FILE *file = fopen("/proc/stat", "r");
    if (!file) return;
    if (fscanf(file, "cpu %lf %lf %lf %lf %lf %lf %lf %lf", &user, &nice, &system, &idle, &waits, &irq, &soft, &stolen) == 8) {
        sample->busy = (user + nice + system + irq + soft) * tick;
        sample->stolen = stolen * tick;
    }
    fclose(file);
}

struct sample take_sample(const struct watched *watched) {
    struct sample sample = {.at = milliseconds()};
    char path[64];
    snprintf(path, sizeof path, "/proc/%d/status", watched->server);
    sample.server = cpu_of(watched->server);
    sample.own = seconds_of(CLOCK_PROCESS_CPUTIME_ID);
    sample.ours = sample.server + sample.own;
    for (int k = 0; k < watched->other_count; k++) sample.ours += cpu_of(watched->others[k]);
    sample.switches = switches_of(watched->server);
    sample.memory = number_in(path, "VmRSS:");
    sample.peak = number_in(path, "VmHWM:");
    sample_machine(&sample);
    return sample;
}
