/* The table calls from C: a walk through every one, and the refusals that a host meets first. */
#include "eidrovang.h"

#include <stdio.h>
#include <stdlib.h>
#include <string.h>

static int lines, wrong;

static void line(bool right, const char *what) {
    lines++;
    if (!right) {
        wrong++;
        printf("differs: %s\n", what);
    }
}

enum { N = 4, C = 8 };
static eid_least least;
static uint64_t *words, *wakes;
static uint8_t *bytes;
static uint32_t *tokens, *releases;

#define STORAGE words, least.words, bytes, least.bytes, tokens, least.tokens
#define LISTS wakes, least.wakes, releases, least.releases
#define TABLE STORAGE, LISTS, N, C
#define NAME(s) (const uint8_t *)(s), sizeof(s) - 1

/* accepted with this value, and so many wakes and releases */
static bool is(eid_answer got, uint64_t value, uint64_t woken, uint64_t released) {
    return got.refusal == 0 && got.flags == 0 && got.value == value && got.items == 0 && got.wakes == woken &&
           got.releases == released;
}

static bool refused(eid_answer got, uint32_t no) {
    return got.refusal == no && got.flags == 0 && got.value == 0 && got.items == 0 && got.wakes == 0 &&
           got.releases == 0;
}

/* a copy of all that is lent, to see that a refusal leaves it */
static uint8_t *kept;

static uint8_t *parts[5];
static size_t part_sizes[5];

static void keep(void) {
    size_t at = 0;
    for (int i = 0; i < 5; at += part_sizes[i++]) memcpy(kept + at, parts[i], part_sizes[i]);
}

static bool unchanged(void) {
    size_t at = 0;
    for (int i = 0; i < 5; at += part_sizes[i++])
        if (memcmp(kept + at, parts[i], part_sizes[i])) return false;
    return true;
}

static void *lend(int part, size_t size) {
    parts[part] = malloc(size), part_sizes[part] = size;
    if (!parts[part]) exit(2);
    memset(parts[part], 0xA5, size);
    return parts[part];
}

static void making(void) {
    line(eid_sizes(0, C).refusal == EID_EINVAL && eid_sizes(N, 0).refusal == EID_EINVAL, "no slot, no byte: 2");
    eid_least none = eid_sizes(1025, 65537);
    line(none.refusal == EID_EINVAL && none.words == 0 && none.releases == 0, "sizes out of range are 0");
    least = eid_sizes(N, C);
    line(least.refusal == 0 && least.wakes == N + 1 && least.releases == 256 * N, "the lists of 4 slots");
    size_t storage = 8 * least.words + least.bytes + 4 * least.tokens;
    line(storage <= N * (C + 65536) + 65536, "the bound on the storage");

    words = lend(0, 8 * least.words), bytes = lend(1, least.bytes), tokens = lend(2, 4 * least.tokens);
    wakes = lend(3, 8 * least.wakes), releases = lend(4, 4 * least.releases);
    kept = malloc(part_sizes[0] + part_sizes[1] + part_sizes[2] + part_sizes[3] + part_sizes[4]);
    if (!kept) exit(2);

    keep();
    line(refused(eid_socket(TABLE, 1, 1, 0), EID_DAMAGED) && unchanged(), "any bytes are no table: 19");
    line(eid_make(STORAGE, N, 0) == EID_EINVAL && unchanged(), "a table of no bytes: 2");
    uint32_t no = eid_make(words, least.words - 1, bytes, least.bytes, tokens, least.tokens, N, C);
    line(no == EID_SHORT && unchanged(), "too few words: 18");
    line(eid_make(STORAGE, N, C) == 0, "a table is made");
}

/* handle: generation x 65,536 + slot */
#define HANDLE(generation, slot) ((uint64_t)(generation) * 65536 + (slot))

static uint64_t listener = HANDLE(1, 0), client = HANDLE(1, 1), server = HANDLE(1, 2);

static void connecting(void) {
    line(refused(eid_socket(TABLE, 2, 1, 0), EID_EAFNOSUPPORT), "domain 2: 12");
    line(is(eid_socket(TABLE, 1, 1, 0), listener, 0, 0), "a socket");
    line(is(eid_bind(TABLE, listener, NAME("/run/a")), 0, 0, 0), "bind");
    line(is(eid_listen(TABLE, listener, 1), 0, 0, 0), "listen, silently");
    line(refused(eid_accept(TABLE, listener), EID_EAGAIN), "nothing pending: 8");
    line(is(eid_socket(TABLE, 1, 1, 0), client, 0, 0), "a second socket");
    line(refused(eid_bind(TABLE, client, NAME("/run/a")), EID_EADDRINUSE), "the name is held: 3");
    line(refused(eid_connect(TABLE, client, NAME("/run/b")), EID_ECONNREFUSED), "nobody of that name: 7");
    line(is(eid_connect(TABLE, client, NAME("/run/a")), 0, 2, 0), "connect");
    line(wakes[0] == listener && wakes[1] == client, "wakes the listener, then the caller");
    line(is(eid_readiness(TABLE, listener), EID_READABLE, 0, 0), "the listener is readable");
    line(refused(eid_readiness(TABLE, server), EID_EBADF), "a pending server's handle: 1");
    line(is(eid_accept(TABLE, listener), server, 1, 0) && wakes[0] == 0, "accept, and the registry wakes");
    line(is(eid_readiness(TABLE, server), EID_WRITABLE, 0, 0), "the server is writable");
}

static void moving(void) {
    uint8_t buf[10];
    uint32_t items[2] = {5, 6};

    eid_answer got = eid_sendmsg(TABLE, client, NAME("ab"), items, 2);
    line(is(got, 2, 1, 0) && wakes[0] == server, "\"ab\" with two items");
    line(is(eid_write(TABLE, client, NAME("cdefghij")), 6, 1, 0), "6 more bytes fit");
    keep();
    line(refused(eid_write(TABLE, client, NAME("k")), EID_EAGAIN) && unchanged(), "a full inbox: 8");

    memset(buf, 0xFF, sizeof buf);
    items[0] = items[1] = 0;
    line(refused(eid_recvmsg(TABLE, server, buf, 0, items, 2), EID_EINVAL), "recvmsg, empty buffer: 2");
    got = eid_recvmsg(TABLE, server, buf, 1, items, 1);
    line(got.refusal == 0 && got.value == 1 && got.items == 1, "a list of one takes one of two items");
    line(buf[0] == 'a' && buf[1] == 0xFF && items[0] == 5 && items[1] == 0, "the first of them");
    line(got.flags == EID_CTRUNC && got.releases == 1 && releases[0] == 6, "the other is released");
    line(got.wakes == 1 && wakes[0] == client, "and the sender woken");
    line(is(eid_read(TABLE, server, buf, sizeof buf), 7, 1, 0) && !memcmp(buf, "bcdefgh\xFF", 8), "read takes the rest");
    line(refused(eid_read(TABLE, server, buf, sizeof buf), EID_EAGAIN), "nothing queued: 8");

    items[0] = 7;
    line(is(eid_sendmsg(TABLE, server, NAME("x"), items, 1), 1, 1, 0), "back, with an item");
    line(is(eid_read(TABLE, client, buf, sizeof buf), 1, 1, 1) && releases[0] == 7, "read releases it");
}

static void ending(void) {
    uint8_t buf[4];

    line(refused(eid_shutdown(TABLE, client, 3), EID_EINVAL), "shutdown 3: 2");
    line(is(eid_shutdown(TABLE, client, 1), 0, 2, 0) && wakes[0] == client && wakes[1] == server, "shutdown of writing wakes both");
    line(refused(eid_write(TABLE, client, NAME("x")), EID_EPIPE), "and then: 10");
    line(is(eid_read(TABLE, server, buf, sizeof buf), 0, 0, 0), "the end of the stream");
    line(is(eid_readiness(TABLE, server), EID_READABLE | EID_WRITABLE, 0, 0), "is readable");

    uint32_t item = 8;
    line(is(eid_sendmsg(TABLE, server, NAME("y"), &item, 1), 1, 1, 0), "the other way is open");
    line(is(eid_close(TABLE, client), 0, 1, 1) && wakes[0] == server && releases[0] == 8, "close wakes the peer and releases");
    line(is(eid_readiness(TABLE, server), EID_READABLE | EID_HUNG_UP, 0, 0), "hung up");
    line(is(eid_close(TABLE, listener), 0, 1, 0) && wakes[0] == 0, "close of a listener wakes the registry");

    keep();
    line(refused(eid_close(TABLE, client), EID_EBADF) && unchanged(), "a stale handle: 1");
    line(refused(eid_readiness(TABLE, server + ((uint64_t)1 << 48)), EID_EBADF), "a handle is compared whole");
    line(is(eid_socket(TABLE, 1, 1, 0), HANDLE(2, 0), 0, 0), "a slot is used again, with the next generation");
}

static void refusing(void) {
    keep();
    line(refused(eid_close(STORAGE, wakes, N, releases, least.releases, N, C, server), EID_SHORT), "a wake list of N: 18");
    line(refused(eid_close(STORAGE, wakes, N, releases, least.releases, 0, C, server), EID_EINVAL), "2 before 18");
    line(refused(eid_close(STORAGE, LISTS, N, C - 1, server), EID_DAMAGED), "another C: 19");
    line(unchanged(), "nothing is changed");

    for (size_t at = 0; at < 8; at++) {
        words[at] ^= 1;
        keep();
        line(refused(eid_readiness(TABLE, server), EID_DAMAGED) && unchanged(), "a damaged header: 19");
        words[at] ^= 1;
    }
    line(is(eid_close(TABLE, server), 0, 0, 0), "and with the word back it goes on");
}

int main(void) {
    making();
    connecting();
    moving();
    ending();
    refusing();
    printf("table calls from C: %d lines, %d differ\n", lines, wrong);
    for (int i = 0; i < 5; i++) free(parts[i]);
    free(kept);
    return wrong != 0;
}
