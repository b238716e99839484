/* Processes that a test starts and ends. None is waited for without an end. */
#ifndef PROCESSES_H
#define PROCESSES_H
#include <signal.h>
#include <stdio.h>
#include <string.h>
#include <sys/wait.h>
#include <time.h>
#include <unistd.h>

static void sleep_ms(long ms) {
    struct timespec t = {ms / 1000, ms % 1000 * 1000000};
    nanosleep(&t, NULL);
}

/* Starts a program, whose output goes nowhere. What a NATS server says goes there too. */
static pid_t process_start(char *const words[]) {
    pid_t child = fork();
    if (!child) {
        if (!freopen("/dev/null", "w", stdout)) _exit(126);
        if (!strcmp(words[0], "nats-server") && !freopen("/dev/null", "w", stderr)) _exit(126);
        execvp(words[0], words);
        _exit(127);
    }
    return child;
}

/* Sends a signal that ends it. 0 where it goes on for half a minute: then it is killed. */
static int process_end(pid_t child, int with) {
    kill(child, with);
    for (int waited = 0; waited < 30000; waited += 5) {
        if (waitpid(child, NULL, WNOHANG)) return 1;
        sleep_ms(5);
    }
    fprintf(stderr, "a process did not end\n");
    kill(child, SIGKILL);
    waitpid(child, NULL, 0);
    return 0;
}
#endif
