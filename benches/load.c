// Load for `relay serve`: watchers that count what they are told, editors that keep some edits on
// the way, and idle connections.
//
//     load PORT deliver WATCHERS SECONDS [PID [KIB]]
//         edits, patches and snapshots a second in one room, of four editors who keep eight edits
//         of 1 KiB on the way each; what the process PID, the server, took of a CPU meanwhile; in a
//         document that weighs so many KiB, 64 at most, besides what is edited
//     load PORT rooms ROOMS SECONDS [PID [KIB]]
//         the same in so many rooms, each with four watchers and one editor who keeps four edits on
//         the way
//     load PORT answer IDLE EDITS
//         microseconds from an edit to its own patch, IDLE links beside
//     load PORT idle LINKS
//         opens links, says so, and waits for the end of its input
//     load PORT single WATCHERS EDITS
//         EDITS edits of one editor, each told to all before the next
//
// Three threads read what is told to watchers, and up to four serve editors, so that counting is
// not the limit: a frame is a header and a length to skip.
#include "client.h"

#include <netinet/tcp.h>
#include <pthread.h>
#include <stdint.h>
#include <sys/epoll.h>
#include <unistd.h>

enum { TEXT = 1024, READERS = 3, WRITERS = 4, ROOM = 1 << 18, SESSIONS = 250 };

typedef struct {
    int fd;
    size_t len, skip; // bytes kept of a frame that is not whole; bytes of a long one still to come
    unsigned char *kept;
    uint64_t patches, snapshots, replies;
    uint64_t asked; // replies that came or are to come
} Link;

// The rooms that are kept busy: so many, each with editors and watchers; each editor keeps some
// edits on the way.
typedef struct {
    int rooms, editors, watchers, on_the_way;
} Busy;

static int port;
static volatile int stopped;

static int connected(void) {
    int fd = socket(AF_INET, SOCK_STREAM, 0), one = 1;
    struct sockaddr_in at = relay_at(port);
    if (fd < 0 || connect(fd, (struct sockaddr *)&at, sizeof at)) fail("connect");
    setsockopt(fd, IPPROTO_TCP, TCP_NODELAY, &one, sizeof one);
    return fd;
}

static void send_all(int fd, const void *bytes, size_t len) {
    for (size_t sent = 0; sent < len;) {
        ssize_t n = send(fd, (const char *)bytes + sent, len - sent, MSG_NOSIGNAL);
        if (n <= 0) fail("send");
        sent += n;
    }
}

static void say(int fd, const char *text) {
    size_t len = strlen(text);
    unsigned char frame[len + FRAME_HEAD];
    send_all(fd, frame, framed(frame, text, len));
}

static void edit(int fd, unsigned n) {
    char text[2 * TEXT];
    const char *begin = "{\"do\":\"edit\",\"id\":2,\"patch\":["
                        "{\"op\":\"replace\",\"path\":\"/x\",\"value\":\"%08u";
    int len = snprintf(text, sizeof text, begin, n);
    memset(text + len, 'x', TEXT - 8);
    strcpy(text + len + TEXT - 8, "\"}]}");
    say(fd, text);
}

// Counts the frames in `bytes` and those kept before. Messages begin with `{"kind":"patch"`,
// `{"kind":"snapshot"` or `{"id":`.
static void count(Link *link, const unsigned char *bytes, size_t len) {
    while (len > 0) {
        if (link->skip > 0) {
            size_t n = link->skip < len ? link->skip : len;
            link->skip -= n, bytes += n, len -= n;
            continue;
        }
        // A header, and enough of a text to know its kind. No message is shorter.
        while (link->len < 24 && len > 0) {
            link->kept[link->len++] = *bytes++, len--;
        }
        if (link->len < 24) return;
        const unsigned char *f = link->kept;
        size_t size, head = head_of(f, &size);
        unsigned char kind = f[head + 9];
        if (f[head + 2] != 'k') link->replies++;
        else if (kind == 'p') link->patches++;
        else link->snapshots++;
        link->skip = head + size - 24;
        link->len = 0;
    }
}

static Link opened(const char *room) {
    Link link = {.fd = connected(), .kept = malloc(24)};
    char head[HANDSHAKE], byte;
    send_all(link.fd, head, handshake(head, room));
    for (int end = 0; end < 4;) { // to the empty line
        if (recv(link.fd, &byte, 1, 0) != 1) fail("handshake");
        end = byte == "\r\n\r\n"[end] ? end + 1 : byte == '\r';
    }
    return link;
}

static void read_some(Link *link, unsigned char *room) {
    ssize_t n = recv(link->fd, room, ROOM, 0);
    if (n <= 0) fail("the relay ended a link");
    count(link, room, n);
}

static void read_replies(Link *link, uint64_t replies) {
    static unsigned char room[ROOM];
    while (link->replies < replies) read_some(link, room);
}

static Link watching(const char *room, const char *view) {
    Link link = opened(room);
    char text[256];
    static unsigned char bytes[ROOM];
    snprintf(text, sizeof text, "{\"do\":\"watch\",\"id\":1,\"view\":[\"%s\"]}", view);
    say(link.fd, text);
    while (link.snapshots == 0) read_some(&link, bytes);
    return link;
}

// The links that one thread serves: links that edit if some edits are to be on the way, and only
// read else.
typedef struct {
    Link *links;
    int count, on_the_way;
} Share;

static void edit_more(Link *link, int on_the_way) {
    while (link->asked < link->replies + on_the_way) edit(link->fd, link->asked++);
}

static void *serve_share(void *arg) {
    Share *share = arg;
    unsigned char *room = malloc(ROOM);
    int poll = epoll_create1(0);
    for (int i = 0; i < share->count; i++) {
        Link *link = &share->links[i];
        struct epoll_event event = {.events = EPOLLIN, .data.ptr = link};
        epoll_ctl(poll, EPOLL_CTL_ADD, link->fd, &event);
        link->asked = link->replies;
        edit_more(link, share->on_the_way);
    }
    struct epoll_event events[64];
    while (!stopped) {
        int n = epoll_wait(poll, events, 64, 100);
        for (int i = 0; i < n; i++) {
            read_some(events[i].data.ptr, room);
            edit_more(events[i].data.ptr, share->on_the_way);
        }
    }
    return 0;
}

// Starts threads that serve the links among them.
static void serve_links(Link *links, int count, int threads, int on_the_way) {
    for (int i = 0, from = 0; i < threads; i++) {
        int to = (int)((long)count * (i + 1) / threads);
        Share *share = malloc(sizeof *share);
        *share = (Share){links + from, to - from, on_the_way};
        pthread_t thread;
        pthread_create(&thread, 0, serve_share, share);
        from = to;
    }
}

// An editor who began the document: the text that is edited, and a list of texts of eight bytes,
// which weigh 16 each.
static Link begun(const char *room, int kibibytes) {
    static char text[1 << 16];
    Link link = opened(room);
    strcpy(text, "{\"do\":\"edit\",\"id\":1,\"patch\":["
                 "{\"op\":\"add\",\"path\":\"\",\"value\":{\"x\":\"\",\"rest\":[0");
    char *end = text + strlen(text);
    for (int i = 0; i < kibibytes * 64; i++) end = stpcpy(end, ",\"abcdefgh\"");
    strcpy(end, "]}}]}");
    say(link.fd, text);
    read_replies(&link, 2);
    return link;
}

// Seconds of CPU time that a process took so far, all its threads together.
static double cpu_time(int pid) {
    char name[64], text[1024] = "";
    unsigned long user = 0, system = 0;
    snprintf(name, sizeof name, "/proc/%d/stat", pid);
    FILE *stat = fopen(name, "r");
    if (!stat || !fgets(text, sizeof text, stat)) fail(name);
    fclose(stat);
    const char *fields = ") %*c %*d %*d %*d %*d %*d %*u %*u %*u %*u %*u %lu %lu";
    sscanf(strrchr(text, ')'), fields, &user, &system);
    return (double)(user + system) / sysconf(_SC_CLK_TCK);
}

static void deliver(Busy busy, int seconds, int server, int kibibytes) {
    int all_editors = busy.rooms * busy.editors, all_watchers = busy.rooms * busy.watchers;
    Link *editors = calloc(all_editors, sizeof *editors), *editor = editors;
    Link *watchers = calloc(all_watchers, sizeof *watchers), *watcher = watchers;
    for (int n = 0; n < busy.rooms; n++) {
        char room[32];
        snprintf(room, sizeof room, "bench%d", n);
        *editor++ = begun(room, kibibytes);
        for (int i = 1; i < busy.editors; i++, editor++) {
            *editor = opened(room);
            read_replies(editor, 1);
        }
        for (int i = 0; i < busy.watchers; i++) *watcher++ = watching(room, "/x");
    }
    serve_links(watchers, all_watchers, READERS, 0);
    serve_links(editors, all_editors, WRITERS, busy.on_the_way);
    uint64_t patches = 0, snapshots = 0, edits = 0;
    double begin = 0, used = 0;
    for (int round = 0; round < 2; round++) { // the first second only warms up
        usleep(round ? seconds * 1000000 : 1000000);
        uint64_t p = 0, s = 0, e = 0;
        for (int i = 0; i < all_watchers; i++) p += watchers[i].patches, s += watchers[i].snapshots;
        for (int i = 0; i < all_editors; i++) e += editors[i].replies;
        if (round) {
            double took = now() - begin;
            double done = (e - edits) / took, more = (p - patches) / took;
            printf("%.0f edits, %.0f patches, ", done, more);
            printf("%.0f snapshots a second", (s - snapshots) / took);
            if (server) printf(", %.1f %% of a CPU", (cpu_time(server) - used) / took * 100);
            printf("\n");
        }
        patches = p, snapshots = s, edits = e, begin = now();
        if (server) used = cpu_time(server);
    }
    exit(0);
}

// Idle links, in rooms of their own; past as many as may have sessions the others say nothing.
static void idle(int links) {
    for (int i = 0; i < links; i++) {
        char room[32];
        snprintf(room, sizeof room, "idle%d", i % 50);
        if (i < SESSIONS) {
            Link link = opened(room);
            read_replies(&link, 1);
        } else connected();
    }
}

static int by_size(const void *a, const void *b) {
    double x = *(const double *)a, y = *(const double *)b;
    return x < y ? -1 : x > y;
}

static void answer(int links, int edits) {
    static unsigned char room[ROOM];
    idle(links);
    Link writer = begun("bench", 0);
    close(writer.fd);
    Link link = watching("bench", "/x");
    double *took = calloc(edits, sizeof *took), all = 0;
    for (int n = 0; n < edits; n++) {
        uint64_t before = link.patches;
        double begin = now();
        edit(link.fd, n);
        while (link.patches == before) read_some(&link, room);
        all += took[n] = now() - begin;
    }
    qsort(took, edits, sizeof *took, by_size);
    double median = took[edits / 2], p99 = took[edits * 99 / 100];
    printf("%.1f microseconds from an edit to its own patch (median), ", median * 1e6);
    printf("%.1f on average, %.1f at p99, ", all / edits * 1e6, p99 * 1e6);
    printf("%d links beside\n", links);
}

static void single(int watchers, int edits) {
    static unsigned char room[ROOM];
    Link writer = begun("bench", 0), *links = calloc(watchers, sizeof *links);
    for (int i = 0; i < watchers; i++) links[i] = watching("bench", "/x");
    printf("ready\n");
    fflush(stdout);
    getchar();
    for (int n = 0; n < edits; n++) {
        uint64_t replies = writer.replies;
        edit(writer.fd, n);
        while (writer.replies == replies) read_some(&writer, room);
        for (int i = 0; i < watchers; i++)
            while (links[i].patches + links[i].snapshots < n + 2ul) read_some(&links[i], room);
    }
    printf("done\n");
    fflush(stdout);
    getchar();
}

int main(int argc, char **argv) {
    int server = argc > 5 ? atoi(argv[5]) : 0, kibibytes = argc > 6 ? atoi(argv[6]) : 0;
    if (argc < 4 || kibibytes > 64) {
        fputs("usage: load PORT deliver|rooms|answer|idle|single NUMBER [NUMBER [PID [KIB]]]\n",
              stderr);
        return 2;
    }
    port = atoi(argv[1]);
    int first = atoi(argv[3]), second = argc > 4 ? atoi(argv[4]) : 1000;
    if (!strcmp(argv[2], "deliver")) deliver((Busy){1, 4, first, 8}, second, server, kibibytes);
    else if (!strcmp(argv[2], "rooms")) deliver((Busy){first, 1, 4, 4}, second, server, kibibytes);
    else if (!strcmp(argv[2], "answer")) answer(first, second);
    else if (!strcmp(argv[2], "single")) single(first, second);
    else {
        idle(first);
        printf("ready\n");
        fflush(stdout);
        getchar();
    }
    return 0;
}
