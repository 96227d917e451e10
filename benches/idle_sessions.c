// Watching sessions that say nothing more, in rooms of their own, which come back when
// the relay ends.
//
//     idle_sessions PORT SESSIONS ROOMS
//
// Each session watches the member /name of its room's document; the first of a room puts it there,
// also after a restart, which forgets all documents. Whenever all sessions hold the right slot it
// prints `all SECONDS`, the time since the first of them was not right. An ended connection is
// opened again, at most 256 at a time. The connections come from eight addresses of 127.0.1.0/24,
// since one has not enough ports for 15,000 and those that just ended.
#define _GNU_SOURCE // memmem
#include "client.h"

#include <errno.h>
#include <sys/epoll.h>
#include <sys/resource.h>
#include <unistd.h>

enum { ADDRESSES = 8, AT_ONCE = 256, BUFFER = 2048, EVENTS = 256 };

typedef enum { AWAY, CONNECTING, SHAKING, WATCHING, RIGHT } Stage;

typedef struct {
    int fd, room, first; // first: puts the document of its room there
    Stage stage;
    size_t len;
    char bytes[BUFFER]; // what came and is no whole frame yet
} Session;

static int port, poller, count, rooms, opening, right, *away, behind;
static double lost;

static void leave(Session *all, Session *s) {
    if (s->stage == RIGHT && right-- == count) lost = now();
    if (s->stage == CONNECTING || s->stage == SHAKING) opening--;
    if (s->fd >= 0) close(s->fd);
    s->fd = -1, s->stage = AWAY, s->len = 0;
    away[behind++] = s - all;
}

static int enter(Session *s, int number) {
    int fd = socket(AF_INET, SOCK_STREAM | SOCK_NONBLOCK, 0), one = 1;
    if (fd < 0) fail("socket");
    struct sockaddr_in from = relay_at(0), to = relay_at(port);
    from.sin_addr.s_addr = htonl(0x7f000101 + number % ADDRESSES);
    setsockopt(fd, IPPROTO_IP, IP_BIND_ADDRESS_NO_PORT, &one, sizeof one);
    if (bind(fd, (struct sockaddr *)&from, sizeof from)) fail("bind");
    if (connect(fd, (struct sockaddr *)&to, sizeof to) && errno != EINPROGRESS) {
        close(fd);
        return 0;
    }
    struct epoll_event event = {.events = EPOLLIN | EPOLLOUT | EPOLLET, .data.ptr = s};
    if (epoll_ctl(poller, EPOLL_CTL_ADD, fd, &event)) fail("epoll_ctl");
    s->fd = fd, s->stage = CONNECTING, opening++;
    return 1;
}

// A few hundred bytes always fit a socket that is new.
static int sent(Session *s, const void *bytes, size_t len) {
    return send(s->fd, bytes, len, MSG_NOSIGNAL) == (ssize_t)len;
}

static int say(Session *s, const char *text) {
    unsigned char frame[512];
    return sent(s, frame, framed(frame, text, strlen(text)));
}

static int shake(Session *s) {
    char head[HANDSHAKE], room[32];
    snprintf(room, sizeof room, "idle%d", s->room);
    s->stage = SHAKING;
    return sent(s, head, handshake(head, room));
}

static int watch(Session *s) {
    char text[256];
    s->stage = WATCHING, opening--; // it may have to wait for the first of its room
    snprintf(text, sizeof text,
             "{\"do\":\"edit\",\"id\":1,\"patch\":["
             "{\"op\":\"add\",\"path\":\"\",\"value\":{\"name\":\"room %d.\"}}]}",
             s->room);
    const char *view = "{\"do\":\"watch\",\"id\":2,\"view\":[\"/name\"]}";
    return (!s->first || say(s, text)) && say(s, view);
}

// A text from the relay: with the room's name in it, it is a snapshot or a patch that makes the
// slot right.
static void hear(Session *s, const char *text, size_t len) {
    char name[32];
    snprintf(name, sizeof name, "\"room %d.\"", s->room);
    if (s->stage == WATCHING && memmem(text, len, name, strlen(name))) {
        s->stage = RIGHT;
        if (++right == count) {
            printf("all %.2f\n", now() - lost);
            fflush(stdout);
        }
    }
}

static int hear_all(Session *s) {
    size_t at = 0;
    if (s->stage == SHAKING) {
        char *end = memmem(s->bytes, s->len, "\r\n\r\n", 4);
        if (!end) return 1;
        if (memcmp(s->bytes, "HTTP/1.1 101", 12) || !watch(s)) return 0;
        at = end + 4 - s->bytes;
    }
    while (s->len - at >= 4) {
        const unsigned char *f = (unsigned char *)s->bytes + at;
        size_t len, head = head_of(f, &len);
        if (s->len - at < head + len) break;
        if ((f[0] & 15) == 8) return 0;
        hear(s, s->bytes + at + head, len);
        at += head + len;
    }
    memmove(s->bytes, s->bytes + at, s->len -= at);
    return 1;
}

static int read_all(Session *s) {
    for (;;) {
        ssize_t n = recv(s->fd, s->bytes + s->len, BUFFER - s->len, 0);
        if (n < 0) return errno == EAGAIN;
        if (n == 0) return 0;
        s->len += n;
        if (!hear_all(s)) return 0;
    }
}

static void enter_some(Session *all) {
    while (behind > 0 && opening < AT_ONCE) {
        int number = away[--behind];
        if (!enter(&all[number], number)) {
            away[behind++] = number;
            usleep(10000); // nobody listens: the relay is not there yet
            return;
        }
    }
}

static void turn(Session *all) {
    struct epoll_event events[EVENTS];
    int n = epoll_wait(poller, events, EVENTS, behind > 0 && opening < AT_ONCE ? 0 : 1000);
    for (int i = 0; i < n; i++) {
        Session *s = events[i].data.ptr;
        int on = s->fd >= 0 && !(events[i].events & (EPOLLERR | EPOLLHUP));
        if (on && s->stage == CONNECTING && events[i].events & EPOLLOUT) on = shake(s);
        if (on && events[i].events & EPOLLIN) on = read_all(s);
        if (!on && s->fd >= 0) leave(all, s);
    }
}

int main(int argc, char **argv) {
    if (argc != 4) return fprintf(stderr, "usage: idle_sessions PORT SESSIONS ROOMS\n"), 2;
    port = atoi(argv[1]), count = atoi(argv[2]), rooms = atoi(argv[3]);
    struct rlimit files = {count + 64, count + 64};
    if (setrlimit(RLIMIT_NOFILE, &files)) fail("files");
    Session *all = calloc(count, sizeof *all);
    away = calloc(count, sizeof *away);
    poller = epoll_create1(0);
    for (int i = 0; i < count; i++) {
        all[i] = (Session){.fd = -1, .room = i % rooms, .first = i < rooms};
        away[behind++] = count - 1 - i;
    }
    lost = now();
    for (;;) {
        enter_some(all);
        turn(all);
    }
}
