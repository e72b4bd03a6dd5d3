/* Puts objects and gets them back, by several clients at once, each a thread: of `b3store serve` by a door, or on standard input and output, or of
   b3store.server or redis by its Unix socket. Each client has one object under way.

     sessions door PATH CLIENTS BYTES COUNT       b3store's door is at PATH
     sessions alone PROGRAM 1 BYTES COUNT         PROGRAM serve, started here
     sessions passed PATH CLIENTS BYTES COUNT     the socket of b3store.server is at PATH, which passes each client its session's pipes
     sessions redis PATH CLIENTS BYTES COUNT      the socket of redis is at PATH

   COUNT is each client's number of objects. It prints the seconds of the puts and of the gets. With one more word QUESTIONS, one client asks so often
   `usage`, or EXISTS of redis, while CLIENTS put objects and forget them; it prints the microseconds of p50, p99 and the longest. */
#define _GNU_SOURCE
#include <fcntl.h>
#include <pthread.h>
#include <stdatomic.h>
#include <stdio.h>
#include <stdlib.h>
#include <string.h>
#include <sys/socket.h>
#include <sys/stat.h>
#include <sys/uio.h>
#include <sys/un.h>
#include <time.h>
#include <unistd.h>

enum { ADDRESS = 64, ROOM = 1 << 20, LINE = 256, FIRST_NUMBER = 1 };

struct client {
    pthread_t thread;
    int number, in, out;
    const char *kind, *target;
    char *room;
    size_t from, to;
    long tenant, bytes, count;
    char *payload, *addresses;
    char paths[2][LINE];
};

static pthread_barrier_t together;
static atomic_int is_over;

static void die(const char *what) {
    perror(what);
    exit(1);
}

static double now(void) {
    struct timespec time;
    clock_gettime(CLOCK_MONOTONIC, &time);
    return (double)time.tv_sec + 1e-9 * (double)time.tv_nsec;
}

static void send_all(struct client *c, struct iovec *pieces, int count) {
    while (count > 0) {
        ssize_t sent = writev(c->out, pieces, count);
        if (sent < 0) {
            die("write");
        }
        while (count > 0 && (size_t)sent >= pieces->iov_len) {
            sent -= (ssize_t)pieces->iov_len;
            pieces++;
            count--;
        }
        if (count > 0) {
            pieces->iov_base = (char *)pieces->iov_base + sent;
            pieces->iov_len -= (size_t)sent;
        }
    }
}

static void send_text(struct client *c, const char *text) {
    struct iovec piece = {(char *)text, strlen(text)};
    send_all(c, &piece, 1);
}

static void fill(struct client *c) {
    if (c->from == c->to) {
        c->from = c->to = 0;
    }
    ssize_t got = read(c->in, c->room + c->to, ROOM - c->to);
    if (got <= 0) {
        die("read");
    }
    c->to += (size_t)got;
}

/* The next line, which ends with a byte 0 in place of its newline. */
static char *line_of(struct client *c) {
    char *end;
    while ((end = memchr(c->room + c->from, '\n', c->to - c->from)) == NULL) {
        if (c->from > 0) {
            memmove(c->room, c->room + c->from, c->to - c->from);
            c->to -= c->from;
            c->from = 0;
        }
        fill(c);
    }
    char *line = c->room + c->from;
    *end = 0;
    c->from = (size_t)(end - c->room) + 1;
    return line;
}

static void drop(struct client *c, size_t count) {
    while (count > 0) {
        if (c->from == c->to) {
            fill(c);
        }
        size_t here = c->to - c->from < count ? c->to - c->from : count;
        c->from += here;
        count -= here;
    }
}

/* The next line, which has to begin with a word. Gives what is after that. */
static char *answer(struct client *c, const char *word) {
    char *line = line_of(c);
    if (strncmp(line, word, strlen(word)) != 0) {
        fprintf(stderr, "the answer is %s, not %s\n", line, word);
        exit(1);
    }
    return line + strlen(word);
}

static void stamp(struct client *c, long number) {
    memcpy(c->payload, &number, sizeof number);
    memcpy(c->payload + sizeof number, &c->number, sizeof c->number);
}

static void put_one(struct client *c, long number) {
    char line[LINE];
    stamp(c, number);
    int len = snprintf(line, LINE, "file %ld %ld\n", c->tenant, c->bytes);
    struct iovec pieces[] = {{line, (size_t)len}, {c->payload, (size_t)c->bytes}};
    send_all(c, pieces, 2);
    memcpy(c->addresses + ADDRESS * number, answer(c, "new "), ADDRESS);
}

static void get_one(struct client *c, long number) {
    char text[LINE];
    snprintf(text, LINE, "fetchb %ld %.64s\n", c->tenant, c->addresses + ADDRESS * number);
    send_text(c, text);
    drop(c, (size_t)atol(answer(c, "bytes ")));
}

static void set_one(struct client *c, long number) {
    char key[LINE / 2], head[LINE];
    stamp(c, number);
    int key_len = snprintf(key, sizeof key, "%d:%ld", c->number, number);
    int head_len = snprintf(head, LINE, "*3\r\n$3\r\nSET\r\n$%d\r\n%s\r\n$%ld\r\n", key_len, key, c->bytes);
    struct iovec pieces[] = {{head, (size_t)head_len}, {c->payload, (size_t)c->bytes}, {"\r\n", 2}};
    send_all(c, pieces, 3);
    answer(c, "+OK");
}

static void redis_get(struct client *c, long number) {
    char key[LINE / 2], text[LINE];
    int key_len = snprintf(key, sizeof key, "%d:%ld", c->number, number);
    snprintf(text, LINE, "*2\r\n$3\r\nGET\r\n$%d\r\n%s\r\n", key_len, key);
    send_text(c, text);
    drop(c, (size_t)atol(answer(c, "$")) + 2);
}

static void knock(struct client *c) {
    char text[LINE];
    int door = open(c->target, O_WRONLY);
    int len = snprintf(text, LINE, "%d\n", c->number);
    if (door < 0 || write(door, text, (size_t)len) != len) {
        die("door");
    }
    close(door);
}

static void open_pipes(struct client *c) {
    int both[2];
    for (int side = 0; side < 2; side++) {
        snprintf(c->paths[side], LINE, "%s.%d.%s", c->target, c->number, side ? "out" : "in");
        if (mkfifo(c->paths[side], 0600) != 0 || (both[side] = open(c->paths[side], O_RDWR)) < 0) {
            die(c->paths[side]);
        }
        fcntl(both[side], F_SETPIPE_SZ, ROOM);
    }
    c->out = both[0];
    c->in = both[1];
    knock(c);
}

static void open_socket(struct client *c) {
    struct sockaddr_un address = {.sun_family = AF_UNIX};
    snprintf(address.sun_path, sizeof address.sun_path, "%s", c->target);
    c->in = c->out = socket(AF_UNIX, SOCK_STREAM, 0);
    if (c->in < 0 || connect(c->in, (struct sockaddr *)&address, sizeof address) != 0) {
        die(c->target);
    }
}

static void ask_for_pipes(struct client *c) {
    char line[8], room[CMSG_SPACE(2 * sizeof(int))];
    struct iovec piece = {line, sizeof line};
    struct msghdr answer = {.msg_iov = &piece, .msg_iovlen = 1, .msg_control = room, .msg_controllen = sizeof room};
    open_socket(c);
    send_text(c, "pipes\n");
    if (recvmsg(c->in, &answer, MSG_CMSG_CLOEXEC) != 6 || answer.msg_controllen != sizeof room) {
        die("pipes");
    }
    // the socket stays open: when it is closed, the server ends the session
    int *passed = (int *)CMSG_DATA(CMSG_FIRSTHDR(&answer));
    c->out = passed[0];
    c->in = passed[1];
}

static void start_program(struct client *c) {
    int to[2], from[2];
    if (pipe2(to, O_CLOEXEC) != 0 || pipe2(from, O_CLOEXEC) != 0) {
        die("pipe");
    }
    fcntl(to[0], F_SETPIPE_SZ, ROOM);
    fcntl(from[0], F_SETPIPE_SZ, ROOM);
    if (fork() == 0) {
        dup2(to[0], 0);
        dup2(from[1], 1);
        execl(c->target, c->target, "serve", (char *)NULL);
        _exit(127);
    }
    close(to[0]);
    close(from[1]);
    c->out = to[1];
    c->in = from[0];
}

static int is_redis(const struct client *c) {
    return strcmp(c->kind, "redis") == 0;
}

static void begin(struct client *c) {
    if (is_redis(c)) {
        open_socket(c);
        return;
    }
    if (strcmp(c->kind, "alone") == 0) {
        start_program(c);
    } else if (strcmp(c->kind, "passed") == 0) {
        ask_for_pipes(c);
    } else {
        open_pipes(c);
    }
    send_text(c, "tenant 70368744177664\n");
    c->tenant = atol(answer(c, "tenant "));
}

static void *put_and_get(void *given) {
    struct client *c = given;
    begin(c);
    pthread_barrier_wait(&together);
    for (long number = 0; number < c->count; number++) {
        is_redis(c) ? set_one(c, number) : put_one(c, number);
    }
    pthread_barrier_wait(&together);
    for (long number = 0; number < c->count; number++) {
        is_redis(c) ? redis_get(c, number) : get_one(c, number);
    }
    pthread_barrier_wait(&together);
    return NULL;
}

static void forget_one(struct client *c) {
    char text[LINE];
    snprintf(text, LINE, "forget %ld %.64s\n", c->tenant, c->addresses);
    send_text(c, text);
    answer(c, "ok");
}

/* Puts objects and forgets them, until it is over. In redis one takes the place of the other. */
static void *put_on(void *given) {
    struct client *c = given;
    begin(c);
    pthread_barrier_wait(&together);
    while (!is_over) {
        if (is_redis(c)) {
            set_one(c, 0);
        } else {
            put_one(c, 0);
            forget_one(c);
        }
    }
    return NULL;
}

static int by_length(const void *one, const void *other) {
    double a = *(const double *)one, b = *(const double *)other;
    return (a > b) - (a < b);
}

static void time_questions(struct client *c, long count) {
    char text[LINE];
    double *times = calloc((size_t)count, sizeof *times);
    begin(c);
    if (is_redis(c)) {
        snprintf(text, LINE, "*2\r\n$6\r\nEXISTS\r\n$3\r\n1:0\r\n");
    } else {
        snprintf(text, LINE, "usage %ld\n", c->tenant);
    }
    pthread_barrier_wait(&together);
    for (long number = 0; number < count; number++) {
        double start = now();
        send_text(c, text);
        answer(c, is_redis(c) ? ":" : "used ");
        times[number] = now() - start;
    }
    is_over = 1;
    qsort(times, (size_t)count, sizeof *times, by_length);
    printf("%.0f %.0f %.0f\n", 1e6 * times[count / 2], 1e6 * times[count * 99 / 100], 1e6 * times[count - 1]);
    free(times);
}

static void make(struct client *c, int number, char **words) {
    *c = (struct client){.number = number + FIRST_NUMBER, .kind = words[1], .target = words[2], .bytes = atol(words[4]), .count = atol(words[5])};
    c->room = malloc(ROOM);
    c->payload = malloc((size_t)c->bytes + sizeof(long) + sizeof(int));
    c->addresses = malloc((size_t)c->count * ADDRESS + ADDRESS);
    if (c->room == NULL || c->payload == NULL || c->addresses == NULL) {
        die("memory");
    }
    for (long at = 0; at < c->bytes; at++) {
        c->payload[at] = (char)(at * 2654435761u >> 13);
    }
}

static void end(struct client *c) {
    for (int side = 0; side < 2 && c->paths[side][0]; side++) {
        unlink(c->paths[side]);
    }
}

int main(int count, char **words) {
    if (count != 6 && count != 7) {
        fprintf(stderr, "usage: sessions door|alone|passed|redis TARGET CLIENTS BYTES COUNT [QUESTIONS]\n");
        return 2;
    }
    int clients = atoi(words[3]), waits = count == 7;
    struct client *all = calloc((size_t)clients + 1, sizeof *all);
    pthread_barrier_init(&together, NULL, (unsigned)clients + 1);
    for (int at = 0; at <= clients; at++) {
        make(&all[at], at, words);
    }
    for (int at = 0; at < clients; at++) {
        pthread_create(&all[at].thread, NULL, waits ? put_on : put_and_get, &all[at]);
    }
    if (waits) {
        time_questions(&all[clients], atol(words[6]));
    } else {
        double times[3];
        for (int at = 0; at < 3; at++) {
            pthread_barrier_wait(&together);
            times[at] = now();
        }
        printf("%f %f\n", times[1] - times[0], times[2] - times[1]);
    }
    for (int at = 0; at < clients; at++) {
        pthread_join(all[at].thread, NULL);
    }
    for (int at = 0; at <= clients; at++) {
        end(&all[at]);
    }
    return 0;
}
