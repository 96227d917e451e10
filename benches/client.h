// The code that the loads in C share: connections to the relay, and frames (RFC 6455) as a client
// sends them, masked by zeros.
#pragma once

#include <arpa/inet.h>
#include <stdio.h>
#include <stdlib.h>
#include <string.h>
#include <sys/socket.h>
#include <time.h>

enum { FRAME_HEAD = 8, HANDSHAKE = 512 };

static void fail(const char *what) {
    perror(what);
    exit(1);
}

static double now(void) {
    struct timespec t;
    clock_gettime(CLOCK_MONOTONIC, &t);
    return t.tv_sec + t.tv_nsec / 1e9;
}

static struct sockaddr_in relay_at(int port) {
    struct in_addr local = {htonl(INADDR_LOOPBACK)};
    return (struct sockaddr_in){.sin_family = AF_INET, .sin_port = htons(port), .sin_addr = local};
}

// The head that enters a room, in at most HANDSHAKE bytes.
static int handshake(char *head, const char *room) {
    return snprintf(head, HANDSHAKE,
                    "GET /rooms/%s HTTP/1.1\r\nHost: localhost\r\n"
                    "Upgrade: websocket\r\nConnection: Upgrade\r\n"
                    "Sec-WebSocket-Key: dGhlIHNhbXBsZSBub25jZQ==\r\n"
                    "Sec-WebSocket-Version: 13\r\n\r\n",
                    room);
}

// A text of less than 64 KiB in one frame, of at most FRAME_HEAD bytes more. Its length.
static size_t framed(unsigned char *frame, const char *text, size_t len) {
    size_t head = len < 126 ? 6 : FRAME_HEAD;
    frame[0] = 0x81;
    frame[1] = 0x80 | (len < 126 ? len : 126);
    if (len >= 126) frame[2] = len >> 8, frame[3] = len;
    memset(frame + head - 4, 0, 4);
    memcpy(frame + head, text, len);
    return head + len;
}

// The bytes of a server's frame in front of its text, and through `size` those of the text.
static size_t head_of(const unsigned char *frame, size_t *size) {
    *size = frame[1] & 127;
    if (*size < 126) return 2;
    size_t head = *size == 126 ? 4 : 10;
    *size = 0;
    for (size_t i = 2; i < head; i++) *size = *size << 8 | frame[i];
    return head;
}
