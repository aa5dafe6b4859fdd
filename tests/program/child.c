/* Starts a program with pipes as its input and output, and feeds it while it writes. */
#define _GNU_SOURCE
#include "child.h"

#include <fcntl.h>
#include <poll.h>
#include <signal.h>
#include <spawn.h>
#include <stdlib.h>
#include <sys/ioctl.h>
#include <sys/wait.h>
#include <time.h>
#include <unistd.h>

enum { SECONDS = 60 };

typedef struct {
    pid_t pid;
    int in, out; /* our ends of its input and output */
} Child;

/* The program meets a closed pipe as any other does, though we ignore the signal. */
static int start(const char *program, const char *word, int in, int out, pid_t *pid)
{
    char *words[] = {(char *)program, (char *)word, NULL};
    posix_spawn_file_actions_t actions;
    posix_spawnattr_t attributes;
    sigset_t signals;
    sigemptyset(&signals);
    sigaddset(&signals, SIGPIPE);
    posix_spawn_file_actions_init(&actions);
    posix_spawn_file_actions_adddup2(&actions, in, STDIN_FILENO);
    posix_spawn_file_actions_adddup2(&actions, out, STDOUT_FILENO);
    posix_spawnattr_init(&attributes);
    posix_spawnattr_setsigdefault(&attributes, &signals);
    posix_spawnattr_setflags(&attributes, POSIX_SPAWN_SETSIGDEF);
    int started = posix_spawn(pid, program, &actions, &attributes, words, NULL) == 0;
    posix_spawnattr_destroy(&attributes);
    posix_spawn_file_actions_destroy(&actions);
    return started;
}

static int open_child(Child *child, const char *program, const char *word)
{
    int in[2], out[2];
    if (pipe2(in, O_CLOEXEC) != 0 || pipe2(out, O_CLOEXEC) != 0)
        abort();
    fcntl(in[1], F_SETFL, O_NONBLOCK);
    int started = start(program, word, in[0], out[1], &child->pid);
    close(in[0]);
    close(out[1]);
    child->in = in[1];
    child->out = out[0];
    return started;
}

static void close_input(Child *child)
{
    if (child->in >= 0)
        close(child->in);
    child->in = -1;
}

/* Writes the next piece; what is sent by then. A program that stopped reading is sent nothing more. */
static size_t send_piece(Child *child, const uint8_t *input, size_t length, size_t sent, size_t piece)
{
    size_t left = length - sent;
    ssize_t count = write(child->in, input + sent, left < piece ? left : piece);
    sent = count < 0 ? length : sent + count;
    if (sent == length)
        close_input(child);
    return sent;
}

/* Whether there is more to read. */
static int receive(Child *child, Output *output)
{
    char surplus[512];
    size_t room = OUTPUT_MAX - output->length;
    ssize_t count = read(child->out, room ? output->text + output->length : surplus, room ? room : sizeof surplus);
    if (count > 0 && room)
        output->length += count;
    return count > 0;
}

static int milliseconds_to(time_t deadline)
{
    time_t left = deadline - time(NULL);
    return left > 0 ? (int)left * 1000 : 0;
}

/* Whether the program has read all that was sent. */
static int has_read(const Child *child)
{
    int unread = 0;
    return ioctl(child->in, FIONREAD, &unread) != 0 || unread == 0;
}

/* Feeds and reads until the program closes its output; whether that was in time. */
static int converse(Child *child, const uint8_t *input, size_t length, size_t piece, Output *output)
{
    time_t deadline = time(NULL) + SECONDS;
    size_t sent = 0;
    if (length == 0)
        close_input(child);
    for (;;) {
        int due = has_read(child);
        struct pollfd ends[] = {{.fd = child->out, .events = POLLIN}, {.fd = due ? child->in : -1, .events = POLLOUT}};
        if (poll(ends, 2, due ? milliseconds_to(deadline) : 1) < 0 || milliseconds_to(deadline) == 0)
            return 0;
        if (ends[1].revents)
            sent = send_piece(child, input, length, sent, piece);
        if (ends[0].revents && !receive(child, output))
            return 1;
    }
}

Output run_program(const char *program, const char *word, const uint8_t *input, size_t length, size_t piece)
{
    Child child;
    Output output = {.end = BROKE};
    int status;
    signal(SIGPIPE, SIG_IGN);
    int started = open_child(&child, program, word);
    int in_time = started && converse(&child, input, length, piece, &output);
    close_input(&child);
    close(child.out);
    if (!started)
        return output;
    if (!in_time)
        kill(child.pid, SIGKILL);
    if (waitpid(child.pid, &status, 0) == child.pid && WIFEXITED(status))
        output.end = ENDED;
    if (!in_time)
        output.end = HUNG;
    output.text[output.length] = 0;
    return output;
}
