/* Clients that log in and then send one statement each, the next as soon as the last is answered.
 *
 * usage: load <port> <user> <clients> <seconds> <statement> [prepared]
 *
 * All on one thread, over 127.0.0.1, as a user without a password. With `prepared` each client prepares the statement, which
 * takes no parameters, and executes it. Prints the statements answered in that time, and the microseconds that the median of
 * them took. With 0 seconds each client logs in, sends the statement once, if there
 * is one, and waits for the end of the input. */
#include <arpa/inet.h>
#include <netinet/tcp.h>
#include <stdint.h>
#include <stdio.h>
#include <stdlib.h>
#include <string.h>
#include <sys/epoll.h>
#include <sys/resource.h>
#include <sys/socket.h>
#include <time.h>
#include <unistd.h>

enum { MOST = 4096, SLOTS = 1 << 20 };

static uint64_t sent_at[MOST];
static int sockets[MOST];
static uint32_t took[SLOTS];
static unsigned char said[MOST][512];
static size_t lengths[MOST];

static uint64_t now(void) {
    struct timespec t;
    clock_gettime(CLOCK_MONOTONIC, &t);
    return t.tv_sec * 1000000ull + t.tv_nsec / 1000;
}

static void fail(const char *what) {
    perror(what);
    exit(1);
}

/* Reads one packet of at most 64 KB, and gives the first byte of its payload. */
static int packet(int s) {
    unsigned char bytes[65536];
    size_t have = 0, want = 4;
    while (have < want) {
        ssize_t n = recv(s, bytes + have, sizeof bytes - have, 0);
        if (n <= 0) fail("recv");
        have += n;
        if (have >= 4) want = 4 + (bytes[0] | bytes[1] << 8 | bytes[2] << 16);
        if (want < 5 || want > sizeof bytes) exit(2);
    }
    return bytes[4];
}

/* Reads a reply of at most 64 KB: an OK or an ERR, or a result set, which ends with its second EOF. Gives 255 for an ERR. */
static int reply(int s) {
    unsigned char bytes[65536];
    size_t have = 0, at = 0, length;
    int eofs = 0;
    for (;;) {
        length = have < at + 4 ? 0 : bytes[at] | bytes[at + 1] << 8 | bytes[at + 2] << 16;
        if (have < at + 4 + length || have == at) {
            if (have == sizeof bytes) exit(2);
            ssize_t n = recv(s, bytes + have, sizeof bytes - have, 0);
            if (n <= 0) fail("recv");
            have += n;
            continue;
        }
        int kind = bytes[at + 4];
        if (kind == 255 || (at == 0 && kind == 0)) return kind;
        if (kind == 254 && length < 9 && ++eofs == 2) return 0;
        at += 4 + length;
    }
}

static void put(int s, unsigned char id, const unsigned char *body, size_t n) {
    unsigned char bytes[1024] = {n & 255, n >> 8, 0, id};
    memcpy(bytes + 4, body, n);
    if (send(s, bytes, n + 4, MSG_NOSIGNAL) != (ssize_t)n + 4) fail("send");
}

static int log_in(int port, const char *user) {
    struct sockaddr_in to = {.sin_family = AF_INET, .sin_port = htons(port), .sin_addr.s_addr = htonl(INADDR_LOOPBACK)};
    int s = socket(AF_INET, SOCK_STREAM, 0), one = 1;
    if (s < 0 || connect(s, (struct sockaddr *)&to, sizeof to)) fail("connect");
    setsockopt(s, IPPROTO_TCP, TCP_NODELAY, &one, sizeof one);
    packet(s);
    /* LONG_PASSWORD, PROTOCOL_41, TRANSACTIONS, SECURE_CONNECTION, PLUGIN_AUTH; utf8mb4 */
    unsigned char body[256] = {0x01, 0xa2, 0x08, 0x00, 0, 0, 0, 1, 45};
    size_t n = 32;
    n += sprintf((char *)body + n, "%s", user) + 1;
    body[n++] = 0;
    n += sprintf((char *)body + n, "mysql_native_password") + 1;
    put(s, 1, body, n);
    if (packet(s) != 0) {
        fprintf(stderr, "login refused\n");
        exit(1);
    }
    return s;
}

/* Prepares a statement without parameters, and gives its number. The answer is a packet, and one for each column with an EOF. */
static uint32_t prepare(int s, const char *text) {
    unsigned char body[512] = {0x16}, bytes[65536];
    size_t n = strlen(text), have = 0, at = 0, length;
    memcpy(body + 1, text, n);
    put(s, 0, body, n + 1);
    uint32_t number = 0;
    for (int packets = 1; packets > 0;) {
        length = have < at + 4 ? 0 : bytes[at] | bytes[at + 1] << 8 | bytes[at + 2] << 16;
        if (have < at + 4 + length || have == at) {
            if (have == sizeof bytes) exit(2);
            ssize_t more = recv(s, bytes + have, sizeof bytes - have, 0);
            if (more <= 0) fail("recv");
            have += more;
            continue;
        }
        if (at == 0) {
            if (bytes[4] != 0 || length != 12 || bytes[11] != 0 || bytes[12] != 0) {
                fprintf(stderr, "preparation refused\n");
                exit(1);
            }
            memcpy(&number, bytes + 5, 4);
            int columns = bytes[9] | bytes[10] << 8;
            packets += columns == 0 ? 0 : columns + 1;
        }
        at += 4 + length;
        packets--;
    }
    return number;
}

/* What a client sends: the statement, or the execute of its preparation. */
static void compose(int i, const char *statement, int prepared) {
    if (!prepared) {
        said[i][0] = 3;
        memcpy(said[i] + 1, statement, strlen(statement));
        lengths[i] = 1 + strlen(statement);
        return;
    }
    uint32_t number = prepare(sockets[i], statement);
    said[i][0] = 0x17;
    memcpy(said[i] + 1, &number, 4);
    said[i][6] = 1; /* no cursor, one execution */
    lengths[i] = 10;
}

static int order(const void *a, const void *b) {
    uint32_t x = *(const uint32_t *)a, y = *(const uint32_t *)b;
    return x < y ? -1 : x > y;
}

int main(int count, char **words) {
    if (count != 6 && count != 7) return 2;
    int port = atoi(words[1]), clients = atoi(words[3]);
    double seconds = atof(words[4]);
    struct rlimit files = {65536, 65536};
    setrlimit(RLIMIT_NOFILE, &files);
    if (clients > MOST || strlen(words[5]) > 500) return 2;
    int poll = epoll_create1(0), asks = words[5][0] != 0;
    for (int i = 0; i < clients; i++) {
        sockets[i] = log_in(port, words[2]);
        struct epoll_event e = {.events = EPOLLIN, .data.u32 = i};
        epoll_ctl(poll, EPOLL_CTL_ADD, sockets[i], &e);
    }
    for (int i = 0; asks && i < clients; i++) compose(i, words[5], count == 7);
    /* Each client's first statement opens its link to the server, and isn't counted. */
    for (int i = 0; asks && i < clients; i++) put(sockets[i], 0, said[i], lengths[i]);
    for (int i = 0; asks && i < clients; i++)
        if (reply(sockets[i]) == 255) {
            fprintf(stderr, "statement refused\n");
            return 1;
        }
    if (seconds == 0) {
        printf("%d clients\n", clients);
        fflush(stdout);
        while (getchar() != EOF) {}
        return 0;
    }
    uint64_t start = now(), end = start + (uint64_t)(seconds * 1e6), answered = 0;
    for (int i = 0; i < clients; i++) {
        sent_at[i] = now();
        put(sockets[i], 0, said[i], lengths[i]);
    }
    while (now() < end) {
        struct epoll_event ready[256];
        int k = epoll_wait(poll, ready, 256, 1000);
        for (int j = 0; j < k; j++) {
            int i = ready[j].data.u32;
            if (reply(sockets[i]) == 255) return 1;
            uint64_t t = now();
            took[answered++ % SLOTS] = t - sent_at[i];
            sent_at[i] = t;
            put(sockets[i], 0, said[i], lengths[i]);
        }
    }
    double passed = (now() - start) / 1e6;
    size_t kept = answered < SLOTS ? answered : SLOTS;
    qsort(took, kept, sizeof *took, order);
    printf("%.0f %u\n", answered / passed, kept ? took[kept / 2] : 0);
    return 0;
}
