/*
 * Runs in the guest: talks to 10.0.0.2, which echoes, and compares every byte.
 *
 *     talk tcp LENGTH ROUNDS       writes LENGTH bytes while it reads them back
 *     talk udp LENGTH ROUNDS       a datagram of LENGTH bytes there and back
 *     talk flood LENGTH SECONDS    datagrams as fast as they go; reads nothing
 *
 * Exit status: 0 if everything came back as it was sent.
 */
#define _GNU_SOURCE
#include <arpa/inet.h>
#include <poll.h>
#include <stdint.h>
#include <stdio.h>
#include <stdlib.h>
#include <string.h>
#include <sys/socket.h>
#include <time.h>
#include <unistd.h>

enum { MOST = 200000, PATIENCE_MS = 60000 };

static uint8_t out[MOST], in[MOST];

/* Other bytes for each seed. */
static void fill(size_t length, uint32_t seed)
{
    uint32_t x = seed * 2654435761u | 1;

    for (size_t i = 0; i < length; i++) {
        x ^= x << 13;
        x ^= x >> 17;
        x ^= x << 5;
        out[i] = (uint8_t)(x >> 11);
    }
}

static int fail(const char *what, long round)
{
    printf("talk: FAILED in round %ld: ", round);
    fflush(stdout);
    perror(what);
    return 1;
}

static int connect_to(int type)
{
    struct sockaddr_in to = { .sin_family = AF_INET, .sin_port = htons(7) };
    int s = socket(AF_INET, type, 0), room = 4 << 20;

    inet_pton(AF_INET, "10.0.0.2", &to.sin_addr);
    setsockopt(s, SOL_SOCKET, SO_SNDBUFFORCE, &room, sizeof room);
    setsockopt(s, SOL_SOCKET, SO_RCVBUFFORCE, &room, sizeof room);
    if (s < 0 || connect(s, (struct sockaddr *)&to, sizeof to) != 0)
        return -1;
    return s;
}

/*
 * Writes and reads until all is back, and compares. An interface that is off blocks a writer for
 * ever, so nothing is waited for without a limit.
 */
static int there_and_back(int s, size_t length)
{
    size_t sent = 0, back = 0;

    while (back < length) {
        struct pollfd wait = { s, (short)(POLLIN | (sent < length ? POLLOUT : 0)), 0 };
        ssize_t n;

        if (poll(&wait, 1, PATIENCE_MS) <= 0)
            return -1;
        if (wait.revents & POLLOUT) {
            n = send(s, out + sent, length - sent, MSG_DONTWAIT);
            sent += n > 0 ? (size_t)n : 0;
        }
        if (wait.revents & (POLLIN | POLLHUP | POLLERR)) {
            n = recv(s, in + back, length - back, MSG_DONTWAIT);
            if (n == 0 || (n < 0 && (wait.revents & (POLLHUP | POLLERR))))
                return -1;
            back += n > 0 ? (size_t)n : 0;
        }
    }
    return memcmp(in, out, length) == 0 ? 0 : -1;
}

static int flood(int s, size_t length, long seconds)
{
    time_t end = time(NULL) + seconds;
    long sent = 0;

    fill(length, 1);
    while (time(NULL) < end) {
        struct pollfd wait = { s, POLLOUT, 0 };

        if (poll(&wait, 1, 100) > 0)
            sent += send(s, out, length, MSG_DONTWAIT) >= 0;
    }
    printf("talk: %ld datagrams of %zu bytes sent\n", sent, length);
    return 0;
}

int main(int argc, char **argv)
{
    size_t length = argc == 4 ? strtoul(argv[2], NULL, 10) : 0;
    long rounds = argc == 4 ? strtol(argv[3], NULL, 10) : 0;
    int tcp, s;

    if (length == 0 || length > MOST) {
        printf("talk: FAILED: wrong usage\n");
        return 2;
    }
    tcp = strcmp(argv[1], "tcp") == 0;
    s = connect_to(tcp ? SOCK_STREAM : SOCK_DGRAM);
    if (s < 0)
        return fail("connect", 0);
    if (strcmp(argv[1], "flood") == 0)
        return flood(s, length, rounds);
    for (long round = 0; round < rounds; round++) {
        fill(length, (uint32_t)round + 1);
        if (there_and_back(s, length) != 0)
            return fail("echo", round);
    }
    printf("talk: %s %ld x %zu bytes came back as sent\n", argv[1], rounds, length);
    return 0;
}
