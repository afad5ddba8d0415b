/* Asks a server on this machine over so many connections, each with one request under way, and takes the time of each.
 *
 *     load PORT CLIENTS SECONDS MOST PER_CONNECTION GREETING WELCOME REQUEST BEGIN END
 *
 * The last five are texts in hexadecimal digits. A connection begins with GREETING, if there is one, and is welcome when
 * what came back ends with WELCOME. A request is REQUEST, with a number that is new in place of the eight '#' in it. Its
 * reply has to begin with BEGIN, and is whole when it ends with END. Behind PER_CONNECTION requests, if that isn't 0, a
 * connection is closed; making another one is part of the time of the request that follows.
 *
 * The first half second isn't counted, and the SECONDS that follow are. Behind these, or MOST requests where that isn't 0,
 * nothing more is asked, and what is under way is waited for. It prints how many requests were made in all, and of
 * the time that is counted: replies a second, median and 99th percentile in microseconds, and which part of the time it
 * had a processor itself. */
#define _GNU_SOURCE
#include <arpa/inet.h>
#include <ctype.h>
#include <netinet/tcp.h>
#include <stdio.h>
#include <stdlib.h>
#include <string.h>
#include <sys/epoll.h>
#include <sys/socket.h>
#include <time.h>
#include <unistd.h>

#define WARM 0.5
#define PATIENCE 60000
#define EVENTS 64

struct text {
    unsigned char *bytes;
    size_t size;
};

struct client {
    int socket;
    long asked;
    double began;
    size_t have;
    unsigned char got[4096];
};

static struct text greeting, welcome, request, begin, end;
static unsigned char *number; /* its place in the request */
static int port, poll;
static long per_connection, asked, replies;
static double *times;

static void fail(const char *what) {
    fprintf(stderr, "%s\n", what);
    exit(1);
}

static double seconds_of(clockid_t clock) {
    struct timespec moment;
    clock_gettime(clock, &moment);
    return (double)moment.tv_sec + (double)moment.tv_nsec / 1e9;
}

static struct text from_hex(const char *digits) {
    struct text text = {malloc(strlen(digits) / 2 + 1), strlen(digits) / 2};
    for (size_t at = 0; at < text.size; at++) {
        sscanf(digits + 2 * at, "%2hhx", text.bytes + at);
    }
    return text;
}

static void say(struct client *client, struct text text) {
    if (send(client->socket, text.bytes, text.size, MSG_NOSIGNAL) != (ssize_t)text.size) {
        fail("a request can't be sent");
    }
    client->have = 0;
}

/* Reads once; gives whether what came since the request ends so. */
static int is_whole(struct client *client, struct text end) {
    ssize_t size = recv(client->socket, client->got + client->have, sizeof client->got - client->have, 0);
    if (size <= 0) {
        fail("a connection ended without a reply");
    }
    client->have += (size_t)size;
    return client->have >= end.size && memcmp(client->got + client->have - end.size, end.bytes, end.size) == 0;
}

static void join(struct client *client) {
    struct sockaddr_in address = {AF_INET, htons((unsigned short)port), {htonl(INADDR_LOOPBACK)}, {0}};
    struct epoll_event event = {EPOLLIN, {client}};
    int yes = 1;
    client->socket = socket(AF_INET, SOCK_STREAM, 0);
    client->asked = 0;
    if (connect(client->socket, (struct sockaddr *)&address, sizeof address) != 0 ||
        setsockopt(client->socket, IPPROTO_TCP, TCP_NODELAY, &yes, sizeof yes) != 0 ||
        epoll_ctl(poll, EPOLL_CTL_ADD, client->socket, &event) != 0) {
        fail("there is no connection");
    }
    if (greeting.size > 0) {
        say(client, greeting);
        while (!is_whole(client, welcome)) {
        }
    }
}

static void ask(struct client *client, double now) {
    char digits[24];
    client->began = now;
    if (per_connection > 0 && client->asked == per_connection) {
        close(client->socket);
        join(client);
    }
    if (number != NULL) {
        snprintf(digits, sizeof digits, "%ld", 10000000 + asked);
        memcpy(number, digits, 8);
    }
    say(client, request);
    client->asked += 1;
    asked += 1;
}

/* Whether a reply is whole; it has to be one that accepts. */
static int is_answered(struct client *client) {
    int whole = is_whole(client, end);
    if (client->have >= begin.size ? memcmp(client->got, begin.bytes, begin.size) != 0 : whole) {
        for (size_t at = 0; at < client->have; at++) {
            client->got[at] = isprint(client->got[at]) ? client->got[at] : ' ';
        }
        fprintf(stderr, "a request is answered '%.*s'\n", (int)client->have, client->got);
        exit(1);
    }
    return whole;
}

static void count(double time) {
    static long room;
    if (replies == room) {
        room += 1000000;
        times = realloc(times, (size_t)room * sizeof *times);
    }
    times[replies++] = time;
}

static int compare(const void *one, const void *other) {
    double difference = *(const double *)one - *(const double *)other;
    return (difference > 0) - (difference < 0);
}

static double part(double share) { return replies > 0 ? times[(long)((double)replies * share)] * 1e6 : 0; }

int main(int words, char **word) {
    if (words != 11) {
        fail("usage: load PORT CLIENTS SECONDS MOST PER_CONNECTION GREETING WELCOME REQUEST BEGIN END");
    }
    int clients = atoi(word[2]), under_way = 0;
    double seconds = atof(word[3]);
    long most = atol(word[4]);
    struct client *all = calloc((size_t)clients, sizeof *all);
    struct epoll_event events[EVENTS];
    port = atoi(word[1]);
    per_connection = atol(word[5]);
    greeting = from_hex(word[6]);
    welcome = from_hex(word[7]);
    request = from_hex(word[8]);
    begin = from_hex(word[9]);
    end = from_hex(word[10]);
    number = memmem(request.bytes, request.size, "########", 8);
    poll = epoll_create1(0);
    for (int at = 0; at < clients; at++) {
        join(&all[at]);
    }

    double first = seconds_of(CLOCK_MONOTONIC), from = first + WARM, until = from + seconds;
    double worked = seconds_of(CLOCK_PROCESS_CPUTIME_ID);
    for (; under_way < clients && (most == 0 || asked < most); under_way++) {
        ask(&all[under_way], seconds_of(CLOCK_MONOTONIC));
    }
    while (under_way > 0) {
        int ready = epoll_wait(poll, events, EVENTS, PATIENCE);
        if (ready <= 0) {
            fail("there is no reply within a minute");
        }
        for (int at = 0; at < ready; at++) {
            struct client *client = events[at].data.ptr;
            if (!is_answered(client)) {
                continue;
            }
            double now = seconds_of(CLOCK_MONOTONIC);
            if (now >= from && now < until) {
                count(now - client->began);
            }
            if (now < until && (most == 0 || asked < most)) {
                ask(client, now);
            } else {
                close(client->socket);
                under_way -= 1;
            }
        }
    }
    worked = (seconds_of(CLOCK_PROCESS_CPUTIME_ID) - worked) / (seconds_of(CLOCK_MONOTONIC) - first);

    qsort(times, (size_t)replies, sizeof *times, compare);
    printf("%ld %.3f %.3f %.3f %.4f\n", asked, (double)replies / seconds, part(0.5), part(0.99), worked);
    return 0;
}
