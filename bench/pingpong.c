/* Round trips over TCP on this machine, between two processes, of 20 bytes or so many as are said.
 *
 *   cc -O2 -o pingpong bench/pingpong.c && ./pingpong COUNT [BYTES]
 *
 * Prints the microseconds of one round trip, their median and what one of a hundred exceeds. First
 * both processes block in their reads of one stream. Then they do as nodes do, over a stream for
 * each direction, with a wait for sockets before each read. The starts of both ends are not in it.
 */
#include <arpa/inet.h>
#include <fcntl.h>
#include <netinet/in.h>
#include <netinet/tcp.h>
#include <stdio.h>
#include <stdlib.h>
#include <sys/epoll.h>
#include <sys/socket.h>
#include <sys/wait.h>
#include <time.h>
#include <unistd.h>

enum { ROOM = 1 << 20 };

static size_t size = 20;

/* What a process reads from and writes to, and what it waits by; -1 where it blocks. */
struct ends {
    int in, out, waiter;
};

static void hear(struct ends *at) {
    static char bytes[ROOM];
    for (size_t done = 0; done < size;) {
        struct epoll_event found[16];
        if (at->waiter >= 0 && epoll_wait(at->waiter, found, 16, 1) < 1) continue;
        ssize_t n = read(at->in, bytes, at->waiter < 0 ? size - done : ROOM);
        if (n <= 0) exit(1);
        done += (size_t) n;
    }
}

static void tell(struct ends *at) {
    static const char bytes[ROOM];
    if (write(at->out, bytes, size) != (ssize_t) size) exit(1);
}

static void set(struct ends *at, int waits) {
    int one = 1;
    at->waiter = -1;
    setsockopt(at->out, IPPROTO_TCP, TCP_NODELAY, &one, sizeof one);
    if (waits) {
        struct epoll_event what = {.events = EPOLLIN | EPOLLRDHUP | EPOLLET};
        fcntl(at->in, F_SETFL, O_NONBLOCK);
        at->waiter = epoll_create1(0);
        epoll_ctl(at->waiter, EPOLL_CTL_ADD, at->in, &what);
    }
}

static double now(void) {
    struct timespec at;
    clock_gettime(CLOCK_MONOTONIC, &at);
    return (double) at.tv_sec * 1e6 + (double) at.tv_nsec / 1e3;
}

static int by_size(const void *a, const void *b) {
    double x = *(const double *) a, y = *(const double *) b;
    return (x > y) - (x < y);
}

static void measure(long count, int as_nodes, const char *how) {
    int listener = socket(AF_INET, SOCK_STREAM, 0);
    struct sockaddr_in at = {.sin_family = AF_INET, .sin_addr.s_addr = htonl(INADDR_LOOPBACK)};
    socklen_t length = sizeof at;
    if (bind(listener, (struct sockaddr *) &at, length) || listen(listener, 2)) exit(1);
    getsockname(listener, (struct sockaddr *) &at, &length);
    if (fork() == 0) {
        struct ends far;
        far.in = accept(listener, NULL, NULL);
        far.out = as_nodes ? accept(listener, NULL, NULL) : far.in;
        set(&far, as_nodes);
        for (long i = 0; i < count; i++) {
            hear(&far);
            tell(&far);
        }
        exit(0);
    }
    struct ends near = {.out = socket(AF_INET, SOCK_STREAM, 0)};
    if (connect(near.out, (struct sockaddr *) &at, length)) exit(1);
    near.in = near.out;
    if (as_nodes) {
        near.in = socket(AF_INET, SOCK_STREAM, 0);
        if (connect(near.in, (struct sockaddr *) &at, length)) exit(1);
    }
    set(&near, as_nodes);
    double *spans = malloc((size_t) count * sizeof *spans), began = now(), last = began;
    for (long i = 0; i < count; i++) {
        tell(&near);
        hear(&near);
        double time = now();
        spans[i] = time - last;
        last = time;
    }
    qsort(spans, (size_t) count, sizeof *spans, by_size);
    printf("%.1f microseconds a round trip (median %.1f, p99 %.1f), %s\n",
        (last - began) / (double) count, spans[count / 2], spans[count * 99 / 100], how);
    free(spans);
    fflush(stdout);
    wait(NULL);
    close(near.in);
    close(listener);
}

int main(int argc, char **argv) {
    long count = argc > 1 ? atol(argv[1]) : 20000;
    if (argc > 2) size = (size_t) atol(argv[2]);
    if (count < 1 || size < 1 || size > ROOM) return 1;
    measure(count, 0, "each blocking in its read");
    measure(count, 1, "each waiting as a node does");
    return 0;
}
