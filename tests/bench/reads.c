// Times one client of the NBD protocol with one read at a time, with structured replies or without:
//
//     reads PORT BYTES MILLISECONDS simple|chunks
//
// It prints the microseconds a read, the mean of so many milliseconds. The reads are at multiples
// of their length that look random.
#include <arpa/inet.h>
#include <endian.h>
#include <netinet/tcp.h>
#include <stdint.h>
#include <stdio.h>
#include <stdlib.h>
#include <string.h>
#include <sys/socket.h>
#include <time.h>
#include <unistd.h>

static int server;
static unsigned char answer[(1 << 20) + 64];

static void fail(const char *why)
{
    fprintf(stderr, "%s\n", why);
    exit(1);
}

static void put(const void *bytes, size_t length)
{
    if (send(server, bytes, length, 0) != (ssize_t)length)
        fail("the server takes no more");
}

static const unsigned char *take(size_t length)
{
    if (length && recv(server, answer, length, MSG_WAITALL) != (ssize_t)length)
        fail("the server ended");
    return answer;
}

static uint32_t u32(const unsigned char *at)
{
    return (uint32_t)at[0] << 24 | at[1] << 16 | at[2] << 8 | at[3];
}

// Sends an option without data, or GO, and takes its replies up to the last one; gives the size
// that was told.
static uint64_t agree(uint32_t option)
{
    static const unsigned char magic[8] = "IHAVEOPT";
    unsigned char text[22] = {0};
    uint32_t length = option == 7 ? 6 : 0, number = htonl(option), data = htonl(length);
    uint64_t size = 0;
    memcpy(text, magic, 8);
    memcpy(text + 8, &number, 4);
    memcpy(text + 12, &data, 4);
    put(text, 16 + length);
    for (;;) {
        const unsigned char *reply = take(20);
        uint32_t kind = u32(reply + 12), more = u32(reply + 16);
        if (kind >> 31)
            fail("an option is refused");
        const unsigned char *info = take(more);
        if (kind == 3 && info[0] == 0 && info[1] == 0)
            size = (uint64_t)u32(info + 2) << 32 | u32(info + 6);
        if (kind == 1)
            return size;
    }
}

static void connect_to(int port)
{
    struct sockaddr_in place = {.sin_family = AF_INET, .sin_port = htons(port)};
    int on = 1;
    place.sin_addr.s_addr = htonl(INADDR_LOOPBACK);
    server = socket(AF_INET, SOCK_STREAM, 0);
    if (connect(server, (struct sockaddr *)&place, sizeof place))
        fail("no server");
    setsockopt(server, IPPROTO_TCP, TCP_NODELAY, &on, sizeof on);
    take(18);
    put("\0\0\0\3", 4);
}

// One read: in chunks its one chunk has a head of 28 bytes, a simple reply one of 16.
static void read_at(uint64_t offset, uint32_t length, int chunks)
{
    unsigned char text[28] = {0x25, 0x60, 0x95, 0x13};
    uint64_t place = htobe64(offset);
    uint32_t bytes = htonl(length);
    memcpy(text + 16, &place, 8);
    memcpy(text + 24, &bytes, 4);
    put(text, sizeof text);
    const unsigned char *reply = take((chunks ? 28 : 16) + length);
    if (chunks) {
        if (u32(reply) != 0x668e33ef || u32(reply + 4) != 0x10001 || u32(reply + 16) != length + 8)
            fail("another chunk");
    } else if (u32(reply) != 0x67446698 || u32(reply + 4)) {
        fail("another reply");
    }
}

static double now(void)
{
    struct timespec time;
    clock_gettime(CLOCK_MONOTONIC, &time);
    return time.tv_sec * 1e6 + time.tv_nsec / 1e3;
}

int main(int count, char **words)
{
    if (count != 5)
        fail("reads PORT BYTES MILLISECONDS simple|chunks");
    uint32_t length = atoi(words[2]), state = 1;
    double until = atof(words[3]) * 1e3, begun, took;
    int chunks = !strcmp(words[4], "chunks");
    long reads = 0;
    if (!length || length > 1 << 20)
        fail("a read has 1 byte to 1 MiB");
    connect_to(atoi(words[1]));
    if (chunks)
        agree(8);
    uint64_t places = agree(7) / length;
    if (!places)
        fail("the export is too short");
    for (begun = now(); (took = now() - begun) < until; reads++) {
        state = state * 1664525 + 1013904223;
        read_at(state % places * length, length, chunks);
    }
    printf("%.1f\n", took / reads);
    return 0;
}
