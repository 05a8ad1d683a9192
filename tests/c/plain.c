/* The calls that need no table, from C: the lines of document 01 on addresses, UTF-8 and control
 * bytes, and a line or more for every other function of that section of the header. */
#include "eidrovang.h"

#include <stdio.h>
#include <string.h>

static int lines, wrong;

static void line(bool right, const char *what) {
    lines++;
    if (!right) {
        wrong++;
        printf("differs: %s\n", what);
    }
}

#define BYTES(...) (const uint8_t[]){__VA_ARGS__}, sizeof((const uint8_t[]){__VA_ARGS__})
/* a slice of length 0 */
#define NONE (const uint8_t *)"", 0

static bool is(eid_number got, uint32_t refusal, uint64_t value) {
    return got.refusal == refusal && got.value == value;
}

static bool shows(eid_path got, uint32_t refusal, size_t start, size_t length) {
    return got.refusal == refusal && got.start == start && got.length == length;
}

/* every byte of the n at p is b */
static bool all(const uint8_t *p, size_t n, uint8_t b) {
    for (size_t i = 0; i < n; i++)
        if (p[i] != b) return false;
    return true;
}

static void utf8(void) {
    line(eid_is_utf8(NONE), "UTF-8: nothing");
    line(eid_is_utf8(BYTES(0x2F, 0x61)), "UTF-8: ASCII");
    line(!eid_is_utf8(BYTES(0xC0, 0x80)), "UTF-8: C0 80, overlong");
    line(eid_is_utf8(BYTES(0xC2, 0x80)), "UTF-8: U+0080");
    line(!eid_is_utf8(BYTES(0xE0, 0x9F, 0xBF)), "UTF-8: E0 9F BF, overlong");
    line(eid_is_utf8(BYTES(0xED, 0x9F, 0xBF)), "UTF-8: U+D7FF");
    line(!eid_is_utf8(BYTES(0xED, 0xA0, 0x80)), "UTF-8: a surrogate");
    line(eid_is_utf8(BYTES(0xF4, 0x8F, 0xBF, 0xBF)), "UTF-8: U+10FFFF");
    line(!eid_is_utf8(BYTES(0xF4, 0x90, 0x80, 0x80)), "UTF-8: above U+10FFFF");
    line(!eid_is_utf8(BYTES(0xE2, 0x82)), "UTF-8: cut short");
}

static void reading(void) {
    line(shows(eid_address_path(BYTES(0x01, 0x00, 0x2F, 0x61, 0x00, 0x62)), 0, 2, 2), "01 00 2F 61 00 62 is \"/a\"");
    line(shows(eid_address_path(BYTES(0x01, 0x00)), EID_EINVAL, 0, 0), "01 00: 2");
    line(shows(eid_address_path(BYTES(0x02, 0x00, 0x61)), EID_EAFNOSUPPORT, 0, 0), "02 00 61: 12");
    line(shows(eid_address_path(BYTES(0x01, 0x00, 0xC0, 0x80)), EID_EINVAL, 0, 0), "01 00 C0 80: 2");
    line(shows(eid_address_path(BYTES(0x01)), EID_EINVAL, 0, 0), "an address of one byte: 2");
    line(shows(eid_address_path(NONE), EID_EINVAL, 0, 0), "an empty address: 2");

    /* "It has no upper length." */
    uint8_t tall[300];
    memset(tall, 'x', sizeof tall);
    tall[0] = 1, tall[1] = 0;
    line(shows(eid_address_path(tall, sizeof tall), 0, 2, 298), "a path of 298 bytes");
}

static void writing(void) {
    uint8_t path[108], addr[112];
    memset(path, 'a', sizeof path);

    memset(addr, 0xFF, sizeof addr);
    line(eid_address_new(path, 107, addr, sizeof addr) == 0, "107 path bytes are written");
    line(addr[0] == 1 && addr[1] == 0 && !memcmp(addr + 2, path, 107) && addr[109] == 0, "the family, the path, a zero");
    line(all(addr + 110, 2, 0xFF), "bytes beyond 110 are kept");
    line(is(eid_address_len(addr, sizeof addr), 0, 110), "its length is 110");
    line(shows(eid_address_path(addr, 110), 0, 2, 107), "its path comes back");

    memset(addr, 0xFF, sizeof addr);
    line(eid_address_new(path, 108, addr, sizeof addr) == EID_ENAMETOOLONG, "108 path bytes: 17");
    line(eid_address_new(path, 108, addr, 109) == EID_SHORT, "18 before 17");
    line(eid_address_new(BYTES(0xC0, 0x80), addr, 110) == EID_EINVAL, "bad UTF-8: 2");
    line(all(addr, sizeof addr, 0xFF), "a refusal writes nothing");
    line(is(eid_address_len(addr, 110), 0, 111), "a full path field without a zero: 111");
    line(is(eid_address_len(addr, 109), EID_SHORT, 0), "the length of 109 bytes: 18");

    line(eid_address_new(NONE, addr, 110) == 0, "an empty path is written");
    line(addr[0] == 1 && all(addr + 1, 109, 0) && is(eid_address_len(addr, 110), 0, 3), "as zeros");
}

static void sizes(void) {
    line(is(eid_cmsg_align(0), 0, 0) && is(eid_cmsg_align(1), 0, 8) && is(eid_cmsg_align(8), 0, 8), "align of 0, 1, 8");
    line(is(eid_cmsg_align(UINT64_MAX - 7), 0, UINT64_MAX - 7), "align of 2^64 - 8");
    line(is(eid_cmsg_align(UINT64_MAX - 6), EID_EINVAL, 0), "align of 2^64 - 7: 2");
    line(is(eid_cmsg_len(4), 0, 20) && is(eid_cmsg_len(UINT64_MAX - 15), EID_EINVAL, 0), "len");
    line(is(eid_cmsg_space(4), 0, 24) && is(eid_cmsg_space(UINT64_MAX), EID_EINVAL, 0), "space");
    line(is(eid_scm_rights_space(16), 0, 80), "space of 16 descriptors: 80");
    line(is(eid_scm_rights_space(UINT64_MAX / 4), EID_EINVAL, 0), "space of 2^62 - 1 descriptors: 2");

    eid_header h = eid_scm_rights(3);
    line(h.refusal == 0 && h.cmsg_level == 1 && h.cmsg_type == 1 && h.cmsg_len == 28, "a header for 3");
    h = eid_scm_rights(UINT64_MAX / 4);
    line(h.refusal == EID_EINVAL && h.cmsg_level == 0 && h.cmsg_type == 0 && h.cmsg_len == 0, "none for 2^62 - 1");

    line(is(eid_scm_rights_count(24, 1, 1, 24), 0, 2), "two descriptors in 24 bytes");
    line(is(eid_scm_rights_count(24, 1, 1, 23), EID_EINVAL, 0), "length above the buffer");
    line(is(eid_scm_rights_count(16, 1, 1, 24), 0, 0), "length 16: none");
    line(is(eid_scm_rights_count(15, 1, 1, 24), EID_EINVAL, 0), "length 15");
    line(is(eid_scm_rights_count(17, 1, 1, 24), EID_EINVAL, 0), "length 17");
    line(is(eid_scm_rights_count(20, 2, 1, 24), EID_EINVAL, 0), "level 2");
    line(is(eid_scm_rights_count(20, 1, -1, 24), EID_EINVAL, 0), "type -1");
}

static void put(uint8_t *at, size_t width, uint64_t n) {
    for (size_t i = 0; i < width; i++) at[i] = (uint8_t)(n >> 8 * i);
}

static void headers(void) {
    uint8_t hdr[56] = {0};
    put(hdr + 24, 8, 16);
    put(hdr + 40, 8, 80);
    line(is(eid_iovec_count(hdr, 56), 0, 16) && is(eid_control_len(hdr, 56), 0, 80), "16 vectors, 80 control bytes");
    line(is(eid_iovec_count(hdr, 55), EID_SHORT, 0) && is(eid_control_len(hdr, 55), EID_SHORT, 0), "55 bytes: 18");
    put(hdr + 24, 8, 17);
    put(hdr + 40, 8, 81);
    line(is(eid_iovec_count(hdr, 56), EID_EMSGSIZE, 0), "17 vectors: 13");
    line(is(eid_control_len(hdr, 56), EID_EINVAL, 0), "81 control bytes: 2");
    put(hdr + 8, 4, 1);
    line(is(eid_iovec_count(hdr, 56), EID_EINVAL, 0), "a name's length: 2, before the count");
    put(hdr + 8, 4, 0);
    put(hdr, 8, (uint64_t)1 << 63);
    line(is(eid_iovec_count(hdr, 56), EID_EINVAL, 0), "a name: 2");

    for (int32_t how = 0; how < 3; how++) line(is(eid_shutdown_how(how), 0, (uint64_t)how), "shutdown's 0, 1, 2");
    line(is(eid_shutdown_how(3), EID_EINVAL, 0) && is(eid_shutdown_how(-1), EID_EINVAL, 0), "shutdown's 3, -1: 2");
}

static void control(void) {
    uint8_t buf[32];
    int32_t one[] = {7}, fds[2];

    memset(buf, 0xFF, sizeof buf);
    line(is(eid_encode_scm_rights(one, 1, buf, 19), EID_SHORT, 0) && all(buf, 32, 0xFF), "one descriptor into 19 bytes: 18");
    line(is(eid_encode_scm_rights(one, 0, buf, 32), 0, 0) && all(buf, 32, 0xFF), "none: 0, and nothing is written");
    for (size_t size = 20; size <= 32; size += 4) {
        memset(buf, 0xFF, sizeof buf);
        line(is(eid_encode_scm_rights(one, 1, buf, size), 0, size < 24 ? size : 24), "one into 20 answers 20, into 24 or 32 answers 24");
        line(all(buf + 20, 12, 0xFF), "the padding is kept");
        fds[0] = fds[1] = -1;
        line(is(eid_parse_scm_rights(buf, size < 24 ? size : 24, fds, 2), 0, 1), "what was encoded is parsed");
        line(fds[0] == 7 && fds[1] == -1, "to the same descriptor, and the other entry stays");
    }

    /* "a control buffer of 24 bytes whose header's length is 15 (2), 16 (no descriptors), 17 (2)" */
    for (uint64_t n = 15; n <= 17; n++) {
        put(buf, 8, n);
        fds[0] = -1;
        line(is(eid_parse_scm_rights(buf, 24, fds, 2), n == 16 ? 0 : EID_EINVAL, 0) && fds[0] == -1, "header's length 15, 16, 17");
    }

    int32_t two[] = {-1, INT32_MIN};
    line(is(eid_encode_scm_rights(two, 2, buf, 32), 0, 24), "two descriptors");
    fds[0] = fds[1] = 0;
    line(is(eid_parse_scm_rights(buf, 24, fds, 1), EID_SHORT, 0) && fds[0] == 0, "a list of one: 18");
    line(is(eid_parse_scm_rights(buf, 24, fds, 2), 0, 2) && fds[0] == -1 && fds[1] == INT32_MIN, "negative numbers");
    line(is(eid_parse_scm_rights(NONE, fds, 2), 0, 0), "empty control: none");
    line(is(eid_parse_scm_rights(buf, 15, fds, 2), EID_EINVAL, 0), "15 bytes: 2");

    line(eid_scm_rights_capacity(15) == 0 && eid_scm_rights_capacity(16) == 0 && eid_scm_rights_capacity(27) == 2, "capacity");

    /* flags are asked before the control bytes */
    fds[0] = 5;
    line(is(eid_sendmsg_control(1, buf, 15, fds, 2), EID_EOPNOTSUPP, 0), "sendmsg: flags before bad control bytes");
    line(is(eid_sendmsg_control(-1, buf, 24, fds, 2), EID_EOPNOTSUPP, 0) && fds[0] == 5, "sendmsg: flags, nothing is parsed");
    line(is(eid_sendmsg_control(0, buf, 24, fds, 2), 0, 2) && fds[0] == -1, "sendmsg: no flags");
    line(is(eid_recvmsg_capacity(1, 80), EID_EOPNOTSUPP, 0) && is(eid_recvmsg_capacity(0, 80), 0, 16), "recvmsg: flags, capacity");
}

int main(void) {
    utf8();
    reading();
    writing();
    sizes();
    headers();
    control();
    printf("plain calls from C: %d lines, %d differ\n", lines, wrong);
    return wrong != 0;
}
