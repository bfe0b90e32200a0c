// So many clients of a Unix socket send the lines of standard input in turn, again and again, for so many milliseconds. Each
// waits for a reply before it sends the next line; a # in a line stands for the client's number in two digits. It prints how
// many replies all clients got, without the first of each. The status is 1 if a socket failed, or if a reply is a refusal or
// doesn't begin with the text that is given for its line.
// usage: ask SOCKET CLIENTS MILLISECONDS [BEGINNING..]: a BEGINNING for each line, or none at all
#include <pthread.h>
#include <signal.h>
#include <stdio.h>
#include <stdlib.h>
#include <string.h>
#include <sys/socket.h>
#include <sys/un.h>
#include <time.h>
#include <unistd.h>

enum { TEXT = 1 << 16, ROOM = 1 << 20, CLIENTS = 64 };

static char text[TEXT];
static size_t text_size;
static char **beginnings;  // of the replies to the lines, and a null
static const char *path;
static long milliseconds;
static pthread_barrier_t ready;

struct client {
    long number, count;
    int has_failed, fd;
    char lines[2 * TEXT];  // the text, with the client's number
    size_t size, at, next; // its length, and where the present line and the next one begin
    size_t line;           // the number of that line
    char reply[ROOM];
};

static double now(void) {
    struct timespec t;
    clock_gettime(CLOCK_MONOTONIC, &t);
    return t.tv_sec * 1e3 + t.tv_nsec / 1e6;
}

static int begins(const char *reply, const char *with) { return strncmp(reply, with, strlen(with)) == 0; }

// Sends the next line and reads its whole reply, of which the beginning is kept; 0 if the socket failed.
static int ask(struct client *it) {
    const char *line = it->lines + it->at, *end = memchr(line, '\n', it->size - it->at);
    it->next = end ? (size_t)(end + 1 - it->lines) : it->size;
    (void)!write(it->fd, line, it->next - it->at);  // a server with too many sessions may have replied and closed already
    for (size_t have = 0;;) {
        if (have == ROOM) have = ROOM / 2;
        ssize_t n = read(it->fd, it->reply + have, ROOM - have);
        if (n <= 0) return 0;
        have += n;
        if (it->reply[have - 1] == '\n') return 1;
    }
}

// Whether the last reply is as wanted; then the next line is the present one.
static int is_answered(struct client *it) {
    const char *wanted = beginnings[0] ? beginnings[it->line] : "";
    if (begins(it->reply, "{\"error\"") || !begins(it->reply, wanted)) return 0;
    it->at = it->next;
    it->line++;
    if (it->at == it->size) it->at = it->line = 0;
    return 1;
}

// Connects and asks once. A server with too many sessions is tried again for a second, since some may just have ended.
static int connect_and_ask(struct client *it) {
    struct sockaddr_un address = {.sun_family = AF_UNIX};
    strncpy(address.sun_path, path, sizeof address.sun_path - 1);
    for (int tries = 0; tries < 50; tries++) {
        it->fd = socket(AF_UNIX, SOCK_STREAM, 0);
        if (connect(it->fd, (struct sockaddr *)&address, sizeof address) != 0 || !ask(it)) return 0;
        if (!begins(it->reply, "{\"error\":\"17 ")) break;
        close(it->fd);
        usleep(20000);
    }
    return is_answered(it);
}

static void *run(void *client) {
    struct client *it = client;
    int is_good = connect_and_ask(it);
    pthread_barrier_wait(&ready);
    for (double end = now() + milliseconds; is_good && now() < end;) {
        is_good = ask(it) && is_answered(it);
        it->count += is_good;
    }
    if (!is_good) fprintf(stderr, "client %ld failed; its last reply: %.200s\n", it->number, it->reply);
    it->has_failed = !is_good;
    close(it->fd);
    return NULL;
}

int main(int argc, char **argv) {
    if (argc < 4) return 2;
    signal(SIGPIPE, SIG_IGN);
    path = argv[1];
    long clients = atol(argv[2]), all = 0;
    milliseconds = atol(argv[3]);
    beginnings = argv + 4;
    if (clients < 1 || clients > CLIENTS) return 2;
    text_size = fread(text, 1, sizeof text, stdin);
    long lines = 0;
    for (size_t k = 0; k < text_size; k++) lines += text[k] == '\n' || k + 1 == text_size;
    if (lines == 0 || (argc > 4 && argc - 4 != lines)) return 2;
    pthread_t threads[CLIENTS];
    struct client *them = calloc(clients, sizeof *them);
    pthread_barrier_init(&ready, NULL, clients);
    for (long i = 0; i < clients; i++) {
        them[i].number = i;
        for (size_t k = 0; k < text_size; k++) {
            if (text[k] == '#') them[i].size += sprintf(them[i].lines + them[i].size, "%02ld", i);
            else them[i].lines[them[i].size++] = text[k];
        }
    }
    for (long i = 0; i < clients; i++) pthread_create(&threads[i], NULL, run, &them[i]);
    int has_failed = 0;
    for (long i = 0; i < clients; i++) pthread_join(threads[i], NULL), all += them[i].count, has_failed |= them[i].has_failed;
    printf("%ld\n", all);
    return has_failed;
}
