/* Eidrovang: Unix stream sockets over a table in storage that the host lends. Every function behind
 * this header is proved to end on every input and to answer as docs/TRACE.md says.
 *
 * All state of a table stands in three lent slices: words, bytes, tokens (docs/STORAGE.md). A call
 * holds none of its pointers after it has returned. Calls on one table are made one at a time: the
 * host has the lock. No two slices of one call overlap. A slice of length 0 may have any pointer but
 * NULL.
 *
 * A refusal answers its number, counts 0, and no lent byte differs. */
#ifndef EIDROVANG_H
#define EIDROVANG_H

#include <stdbool.h>
#include <stddef.h>
#include <stdint.h>

#ifdef __cplusplus
extern "C" {
#endif

/* The numbers that a caller may get back; 0 is accepted. */
enum {
    EID_EBADF = 1,
    EID_EINVAL = 2,
    EID_EADDRINUSE = 3,
    EID_EDESTADDRREQ = 4,
    EID_EISCONN = 5,
    EID_EOPNOTSUPP = 6,
    EID_ECONNREFUSED = 7,
    EID_EAGAIN = 8,
    EID_ENOTCONN = 9,
    EID_EPIPE = 10,
    EID_ENOBUFS = 11,
    EID_EAFNOSUPPORT = 12,
    EID_EMSGSIZE = 13,
    EID_EPROTOTYPE = 14,
    EID_EPROTONOSUPPORT = 15,
    EID_ENFILE = 16,
    EID_ENAMETOOLONG = 17,
    EID_SHORT = 18,   /* lent storage or list too small */
    EID_DAMAGED = 19  /* the table is not well-formed */
};

/* readiness, added */
enum { EID_READABLE = 1, EID_WRITABLE = 2, EID_HUNG_UP = 4 };

/* recvmsg's flags: there were more items than the lent list takes; the rest were released */
enum { EID_CTRUNC = 8 };

/* ── The table ── */

/* What a table call answers. value: a handle (socket, accept), a count of bytes (read, recvmsg,
 * write, sendmsg), the readiness; 0 where the call has none. items, wakes, releases: how many
 * entries of the item list, the wake list and the release list are filled; the others are as they
 * were. A wake is a handle, or 0 for the registry. */
typedef struct {
    uint32_t refusal;
    uint32_t flags;
    uint64_t value;
    uint64_t items;
    uint64_t wakes;
    uint64_t releases;
} eid_answer;

/* The least lengths of what is lent, for n slots (1 to 1,024) of c bytes (1 to 65,536); out of
 * range: refusal 2 and all 0. */
typedef struct {
    uint32_t refusal;
    uint64_t words;
    uint64_t bytes;
    uint64_t tokens;
    uint64_t wakes;
    uint64_t releases;
} eid_least;

eid_least eid_sizes(size_t n, size_t c);

/* A fresh table, whatever stood in the storage: 0, or 2, or 18. */
uint32_t eid_make(uint64_t *words, size_t words_len, uint8_t *bytes, size_t bytes_len, uint32_t *tokens,
                  size_t tokens_len, size_t n, size_t c);

/* What every table call is lent. */
#define EID_LENT                                                                                         \
    uint64_t *words, size_t words_len, uint8_t *bytes, size_t bytes_len, uint32_t *tokens,               \
        size_t tokens_len, uint64_t *wakes, size_t wakes_len, uint32_t *releases, size_t releases_len,   \
        size_t n, size_t c

eid_answer eid_socket(EID_LENT, int32_t domain, int32_t type, int32_t protocol);
eid_answer eid_bind(EID_LENT, uint64_t handle, const uint8_t *name, size_t name_len);
eid_answer eid_listen(EID_LENT, uint64_t handle, uint32_t backlog);
eid_answer eid_accept(EID_LENT, uint64_t handle);
eid_answer eid_connect(EID_LENT, uint64_t handle, const uint8_t *name, size_t name_len);
eid_answer eid_read(EID_LENT, uint64_t handle, uint8_t *buf, size_t buf_len);
eid_answer eid_recvmsg(EID_LENT, uint64_t handle, uint8_t *buf, size_t buf_len, uint32_t *items,
                       size_t items_len);
eid_answer eid_write(EID_LENT, uint64_t handle, const uint8_t *buf, size_t buf_len);
eid_answer eid_sendmsg(EID_LENT, uint64_t handle, const uint8_t *buf, size_t buf_len, const uint32_t *items,
                       size_t items_len);
eid_answer eid_shutdown(EID_LENT, uint64_t handle, int32_t how);
eid_answer eid_close(EID_LENT, uint64_t handle);
eid_answer eid_readiness(EID_LENT, uint64_t handle);

/* ── Addresses, message headers, control bytes ── */

/* a number from the list above, and the value, which is 0 where it is refused */
typedef struct {
    uint32_t refusal;
    uint64_t value;
} eid_number;

/* the path of an address: length bytes from start on; both 0 where it is refused */
typedef struct {
    uint32_t refusal;
    size_t start;
    size_t length;
} eid_path;

/* a control header's fields, all 0 where it is refused */
typedef struct {
    uint32_t refusal;
    int32_t cmsg_level;
    int32_t cmsg_type;
    uint64_t cmsg_len;
} eid_header;

/* the bytes are UTF-8 (RFC 3629) */
bool eid_is_utf8(const uint8_t *bytes, size_t len);

/* Writes the address of a path into the first 110 bytes of addr: 0, or 18, 17, 2. */
uint32_t eid_address_new(const uint8_t *path, size_t path_len, uint8_t *addr, size_t addr_len);
eid_number eid_address_len(const uint8_t *addr, size_t addr_len);
eid_path eid_address_path(const uint8_t *addr, size_t addr_len);

/* CMSG_ALIGN, CMSG_LEN, CMSG_SPACE; 2 where the value passes 2^64 - 1 */
eid_number eid_cmsg_align(uint64_t len);
eid_number eid_cmsg_len(uint64_t data_len);
eid_number eid_cmsg_space(uint64_t data_len);
eid_number eid_scm_rights_space(uint64_t fd_count);
eid_header eid_scm_rights(uint64_t fd_count);
/* how many descriptors a header says, in a control buffer of control_len bytes, or 2 */
eid_number eid_scm_rights_count(uint64_t cmsg_len, int32_t cmsg_level, int32_t cmsg_type, uint64_t control_len);

/* of a struct msghdr of 56 bytes; fewer 18 */
eid_number eid_iovec_count(const uint8_t *hdr, size_t hdr_len);
eid_number eid_control_len(const uint8_t *hdr, size_t hdr_len);

/* 0 read, 1 write, 2 both; any other number is refused with 2 */
eid_number eid_shutdown_how(int32_t how);

/* Control bytes to descriptors and back. value: how many descriptors stand in fds; how many bytes of
 * control to hand over. What is not written stays. */
eid_number eid_parse_scm_rights(const uint8_t *control, size_t control_len, int32_t *fds, size_t fds_len);
eid_number eid_encode_scm_rights(const int32_t *fds, size_t fds_len, uint8_t *control, size_t control_len);
uint64_t eid_scm_rights_capacity(uint64_t controllen);

/* What sendmsg and recvmsg ask before the table call: flags (6), then the control bytes. */
eid_number eid_sendmsg_control(int32_t flags, const uint8_t *control, size_t control_len, int32_t *fds,
                               size_t fds_len);
eid_number eid_recvmsg_capacity(int32_t flags, uint64_t controllen);

#ifdef __cplusplus
}
#endif

#endif
