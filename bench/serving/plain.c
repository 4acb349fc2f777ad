/* What `bench/serve` measures a service with, and what it measures beside it.
 *
 *   plain spawn COUNT AT_ONCE bare|kept             starts `true` COUNT times, and waits for each
 *   plain ask PORT CONNECTIONS COUNT read|add NAME  makes COUNT requests over kept connections, together
 *
 * `spawn` is a loop of posix_spawnp and waitpid on one thread, with at most AT_ONCE child programs at a time. They have the standard
 * streams of this program; with `kept` each has a pipe as its input, and two new files for what it writes, as those of a service do.
 * `ask` has a thread for each connection, which makes the next request when the response to the last one was read to its end: reads of
 * the pool `p`, or tasks of the job `j` that are added, with ids that begin with NAME. Both write the seconds that it took. The status
 * is 1 if a child program could not be started or ended with another code than 0, or if a response was not 200 or 201.
 */
#define _GNU_SOURCE
#include <arpa/inet.h>
#include <fcntl.h>
#include <netinet/tcp.h>
#include <pthread.h>
#include <spawn.h>
#include <stdio.h>
#include <stdlib.h>
#include <string.h>
#include <sys/socket.h>
#include <sys/wait.h>
#include <time.h>
#include <unistd.h>

enum { MOST_AT_ONCE = 64, ROOM = 65536 };

extern char **environ;

static double now(void) {
    struct timespec time;
    clock_gettime(CLOCK_MONOTONIC, &time);
    return time.tv_sec + time.tv_nsec / 1e9;
}

static void fail(const char *what) {
    perror(what);
    exit(1);
}

/* A child program, with the end of its input that is written to. */
struct child {
    pid_t pid;
    int input;
};

static int new_file(const char *name, int number) {
    char path[64];
    snprintf(path, sizeof path, "%s-%d.txt", name, number);
    int file = open(path, O_WRONLY | O_CREAT | O_TRUNC | O_CLOEXEC, 0666);
    if (file < 0)
        fail(path);
    return file;
}

static struct child start_bare(void) {
    char *words[] = {"true", NULL};
    struct child child = {0, -1};
    if (posix_spawnp(&child.pid, words[0], NULL, NULL, words, environ) != 0)
        fail("true");
    return child;
}

static struct child start_kept(int number) {
    char *words[] = {"true", NULL};
    struct child child;
    posix_spawn_file_actions_t actions;
    int ends[2], output = new_file("stdout", number), errors = new_file("stderr", number);
    if (pipe2(ends, O_CLOEXEC) != 0)
        fail("pipe");
    posix_spawn_file_actions_init(&actions);
    posix_spawn_file_actions_adddup2(&actions, ends[0], 0);
    posix_spawn_file_actions_adddup2(&actions, output, 1);
    posix_spawn_file_actions_adddup2(&actions, errors, 2);
    if (posix_spawnp(&child.pid, words[0], &actions, NULL, words, environ) != 0)
        fail("true");
    posix_spawn_file_actions_destroy(&actions);
    close(ends[0]);
    close(output);
    close(errors);
    child.input = ends[1];
    return child;
}

/* Waits for any of the child programs, and returns its place among them. */
static int wait_for_one(struct child *children, int count) {
    int status;
    pid_t pid = waitpid(-1, &status, 0);
    if (pid < 0 || !WIFEXITED(status) || WEXITSTATUS(status) != 0)
        fail("waitpid");
    for (int place = 0; place < count; place++)
        if (children[place].pid == pid) {
            if (children[place].input >= 0)
                close(children[place].input);
            return place;
        }
    exit(1);
}

static void spawn_all(int count, int at_once, int is_kept) {
    struct child children[MOST_AT_ONCE];
    int running = 0;
    for (int number = 1; number <= count || running > 0;) {
        if (number <= count && running < at_once) {
            children[running++] = is_kept ? start_kept(number) : start_bare();
            number++;
        } else {
            int place = wait_for_one(children, running);
            children[place] = children[--running];
        }
    }
}

/* What a thread of requests is told. */
struct asker {
    pthread_t thread;
    int port, number, count, is_add;
    const char *name;
};

static int connected(int port) {
    struct sockaddr_in address = {.sin_family = AF_INET, .sin_port = htons(port), .sin_addr = {htonl(INADDR_LOOPBACK)}};
    int link = socket(AF_INET, SOCK_STREAM, 0), yes = 1;
    if (link < 0 || connect(link, (struct sockaddr *)&address, sizeof address) != 0)
        fail("connect");
    setsockopt(link, IPPROTO_TCP, TCP_NODELAY, &yes, sizeof yes);
    return link;
}

static int request(char *text, const struct asker *asker, int number) {
    char body[256];
    if (!asker->is_add)
        return snprintf(text, ROOM, "GET /pools/p HTTP/1.1\r\nHost: 127.0.0.1:%d\r\n\r\n", asker->port);
    int length = snprintf(body, sizeof body, "{\"id\":\"%s-%d-%d\",\"commandLine\":\"true\"}", asker->name, asker->number, number);
    return snprintf(text, ROOM, "POST /jobs/j/tasks HTTP/1.1\r\nHost: 127.0.0.1:%d\r\nContent-Type: application/json\r\nContent-Length: %d\r\n\r\n%s",
                    asker->port, length, body);
}

/* Reads one response to its end, and returns its status; 0 if the connection ends before that. */
static int response(int link, char *text) {
    int got = 0, whole = -1;
    while (whole < 0 || got < whole) {
        int more = read(link, text + got, ROOM - 1 - got);
        if (more <= 0)
            return 0;
        got += more;
        text[got] = 0;
        char *end = strstr(text, "\r\n\r\n"), *length = strstr(text, "Content-Length: ");
        if (end)
            whole = end + 4 - text + (length && length < end ? atoi(length + 16) : 0);
    }
    return atoi(text + 9);
}

static void *ask_all(void *told) {
    const struct asker *asker = told;
    char *text = malloc(ROOM);
    int link = connected(asker->port);
    for (int number = 1; number <= asker->count; number++) {
        int length = request(text, asker, number);
        if (write(link, text, length) != length)
            fail("write");
        int status = response(link, text);
        if (status != (asker->is_add ? 201 : 200)) {
            fprintf(stderr, "connection %d, request %d: status %d\n", asker->number, number, status);
            exit(1);
        }
    }
    close(link);
    free(text);
    return NULL;
}

static void ask_together(int port, int connections, int count, int is_add, const char *name) {
    struct asker askers[MOST_AT_ONCE];
    for (int number = 0; number < connections; number++) {
        askers[number] = (struct asker){.port = port, .number = number, .count = count / connections, .is_add = is_add, .name = name};
        if (pthread_create(&askers[number].thread, NULL, ask_all, &askers[number]) != 0)
            fail("pthread_create");
    }
    for (int number = 0; number < connections; number++)
        pthread_join(askers[number].thread, NULL);
}

int main(int count, char **words) {
    double begun = now();
    if (count == 5 && strcmp(words[1], "spawn") == 0 && atoi(words[3]) <= MOST_AT_ONCE)
        spawn_all(atoi(words[2]), atoi(words[3]), strcmp(words[4], "kept") == 0);
    else if (count == 7 && strcmp(words[1], "ask") == 0 && atoi(words[3]) <= MOST_AT_ONCE)
        ask_together(atoi(words[2]), atoi(words[3]), atoi(words[4]), strcmp(words[5], "add") == 0, words[6]);
    else
        return 2;
    printf("%.6f\n", now() - begun);
    return 0;
}
