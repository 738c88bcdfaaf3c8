/* driver: the guest's side of a virtio-fs device, played from a chain stream.
 *
 *     driver [--window FILE] SOCKET < STREAM > ANSWERS
 *
 * It connects to the vhost-user back end at SOCKET (virtiofsd, say, or our bridge), offers each chain of the stream on a queue
 * in memory of its own, in the pieces that the stream has, and writes the answer as a frame of the form of `daxwire serve`
 * before it reads on. So it makes of a foreign device a command that speaks the chain stream: as the bridge's COMMAND it
 * carries a real guest's requests to that device, and the bridge records them.
 *
 * FORGET, INTERRUPT and BATCH_FORGET go to the high priority queue, all else to the first request queue (VIRTIO 1.2, section
 * 5.11.6). Where FILE is the back end's DAX window, a load or store goes to its bytes, as a guest's does, and is done, whether
 * or not something is mapped there. Else, or past the window, it is answered as unmapped.
 *
 * The status is 0, or 1 with one line on standard error that says why.
 */
#define _GNU_SOURCE
#include <errno.h>
#include <fcntl.h>
#include <poll.h>
#include <stdbool.h>
#include <stdint.h>
#include <stdio.h>
#include <stdlib.h>
#include <string.h>
#include <sys/eventfd.h>
#include <sys/mman.h>
#include <sys/socket.h>
#include <sys/stat.h>
#include <sys/un.h>
#include <unistd.h>

#if __BYTE_ORDER__ != __ORDER_LITTLE_ENDIAN__
#error "rings, messages and frames are little-endian, and are read in place"
#endif

#define fail(...) (fputs("driver: ", stderr), fprintf(stderr, __VA_ARGS__), fputc('\n', stderr), exit(1))

enum {
    SIZE = 1024,       /* descriptors of a queue */
    PART = 1052672,    /* bytes of a chain's readable or writable part, at most */
    ACCESS = 1048576,  /* bytes of a load or store, at most */
    QUEUES = 2,        /* the high priority queue, and the first request queue */
};
enum { CHAIN = 1, LOAD = 2, STORE = 3 };
enum { DONE = 0, UNMAPPED = 1 };
enum { NEXT = 1, WRITABLE = 2 };

/* ---- The memory that both sides share ---- */

struct descriptor {
    uint64_t address;
    uint32_t length;
    uint16_t flags, next;
};
struct ring {
    struct descriptor table[SIZE];
    struct {
        uint16_t flags, index, heads[SIZE];
    } available;
    struct {
        uint16_t flags, index;
        struct {
            uint32_t head, length;
        } ring[SIZE];
    } used __attribute__((aligned(4)));
} __attribute__((aligned(4096)));

static struct memory {
    struct ring ring[QUEUES];
    uint8_t request[PART], reply[PART];
} __attribute__((aligned(4096))) *memory;

static int kick[QUEUES], call[QUEUES];

/* ---- Messages to the back end (QEMU's docs/interop/vhost-user.rst) ---- */

enum {
    GET_FEATURES = 1, SET_FEATURES = 2, SET_OWNER = 3, SET_MEM_TABLE = 5,
    SET_VRING_NUM = 8, SET_VRING_ADDR = 9, SET_VRING_BASE = 10, SET_VRING_KICK = 12, SET_VRING_CALL = 13,
    GET_PROTOCOL_FEATURES = 15, SET_PROTOCOL_FEATURES = 16, SET_VRING_ENABLE = 18,
};

#define VERSION_1 (1ull << 32)
#define PROTOCOL_FEATURES (1ull << 30)

static int back_end;

/* Sends a message of some 64-bit words, with a file beside it where that isn't -1. */
static void send_message(uint32_t request, const uint64_t *words, uint32_t size, int file)
{
    struct {
        uint32_t request, flags, size;
    } header = {request, 1, size};
    union {
        char bytes[CMSG_SPACE(sizeof(int))];
        struct cmsghdr aligned;
    } beside = {{0}};
    struct iovec parts[2] = {{&header, sizeof header}, {(void *)words, size}};
    struct msghdr message = {.msg_iov = parts, .msg_iovlen = 2};
    if (file >= 0) {
        message.msg_control = beside.bytes;
        message.msg_controllen = sizeof beside.bytes;
        struct cmsghdr *it = CMSG_FIRSTHDR(&message);
        it->cmsg_level = SOL_SOCKET;
        it->cmsg_type = SCM_RIGHTS;
        it->cmsg_len = CMSG_LEN(sizeof(int));
        memcpy(CMSG_DATA(it), &file, sizeof file);
    }
    if (sendmsg(back_end, &message, MSG_NOSIGNAL) != (ssize_t)(sizeof header + size))
        fail("the back end takes no message: %s", strerror(errno));
}

static void send_number(uint32_t request, uint64_t number, int file)
{
    send_message(request, &number, sizeof number, file);
}

static uint64_t ask(uint32_t request)
{
    uint32_t header[3];
    uint64_t number;
    send_message(request, NULL, 0, -1);
    if (recv(back_end, header, sizeof header, MSG_WAITALL) != sizeof header || header[2] != sizeof number ||
        recv(back_end, &number, sizeof number, MSG_WAITALL) != sizeof number)
        fail("the back end doesn't answer message %u", request);
    return number;
}

static void connect_to(const char *path)
{
    struct sockaddr_un address = {.sun_family = AF_UNIX};
    if (strlen(path) >= sizeof address.sun_path)
        fail("the socket's path is too long: %s", path);
    strcpy(address.sun_path, path);
    back_end = socket(AF_UNIX, SOCK_STREAM | SOCK_CLOEXEC, 0);
    if (back_end < 0 || connect(back_end, (void *)&address, sizeof address))
        fail("no back end at %s: %s", path, strerror(errno));
}

/* Shares the memory: guest-physical addresses in it begin at 0. */
static void share_memory(void)
{
    int file = memfd_create("driver", MFD_CLOEXEC);
    if (file < 0 || ftruncate(file, sizeof *memory))
        fail("no memory to share: %s", strerror(errno));
    memory = mmap(NULL, sizeof *memory, PROT_READ | PROT_WRITE, MAP_SHARED, file, 0);
    if (memory == MAP_FAILED)
        fail("no memory to share: %s", strerror(errno));
    uint64_t table[5] = {1, 0, sizeof *memory, (uintptr_t)memory, 0};
    send_message(SET_MEM_TABLE, table, sizeof table, file);
    close(file);
}

static void start_queue(uint32_t number)
{
    struct ring *ring = &memory->ring[number];
    uint64_t addresses[5] = {number, (uintptr_t)ring->table, (uintptr_t)&ring->used, (uintptr_t)&ring->available, 0};
    kick[number] = eventfd(0, EFD_CLOEXEC);
    call[number] = eventfd(0, EFD_CLOEXEC | EFD_NONBLOCK);
    if (kick[number] < 0 || call[number] < 0)
        fail("no event file: %s", strerror(errno));
    send_number(SET_VRING_NUM, number | (uint64_t)SIZE << 32, -1);
    send_number(SET_VRING_BASE, number, -1);
    send_message(SET_VRING_ADDR, addresses, sizeof addresses, -1);
    send_number(SET_VRING_CALL, number, call[number]);
    send_number(SET_VRING_KICK, number, kick[number]);
    send_number(SET_VRING_ENABLE, number | 1ull << 32, -1);
}

static void start(const char *path)
{
    connect_to(path);
    uint64_t features = ask(GET_FEATURES);
    if (!(features & VERSION_1) || !(features & PROTOCOL_FEATURES))
        fail("the back end lacks VERSION_1 or the protocol features: it offers 0x%llx", (unsigned long long)features);
    ask(GET_PROTOCOL_FEATURES);
    send_number(SET_PROTOCOL_FEATURES, 0, -1);
    send_message(SET_OWNER, NULL, 0, -1);
    send_number(SET_FEATURES, VERSION_1 | PROTOCOL_FEATURES, -1);
    share_memory();
    for (uint32_t i = 0; i < QUEUES; i++)
        start_queue(i);
}

/* ---- Frames ---- */

/* Reads bytes of the stream. Answers false where it ends before the first of them. */
static bool take(void *bytes, size_t length)
{
    size_t taken = fread(bytes, 1, length, stdin);
    if (taken < length && (taken > 0 || ferror(stdin)))
        fail("the stream ends within a frame");
    return taken == length;
}

static void take_all(void *bytes, size_t length)
{
    if (!take(bytes, length) && length)
        fail("the stream ends within a frame");
}

static void put(const void *bytes, size_t length)
{
    if (fwrite(bytes, 1, length, stdout) != length)
        fail("standard output failed: %s", strerror(errno));
}

/* Lays a part's pieces into descriptors from `at` on, and returns the part's length. */
static uint32_t lay(struct descriptor *table, uint16_t at, uint16_t count, const uint32_t *lengths, const uint8_t *bytes, uint16_t flags)
{
    uint32_t total = 0;
    for (uint16_t i = 0; i < count; i++) {
        if (lengths[i] > PART - total)
            fail("a part of a chain has more than %d bytes", PART);
        table[at + i] = (struct descriptor){(uint64_t)(bytes - (uint8_t *)memory) + total, lengths[i], (uint16_t)(flags | NEXT), (uint16_t)(at + i + 1)};
        total += lengths[i];
    }
    return total;
}

/* Offers the chain whose head is descriptor 0, and waits until it comes back. Returns how much was written. */
static uint32_t offer(unsigned number)
{
    struct ring *ring = &memory->ring[number];
    uint64_t one = 1;
    uint16_t index = ring->available.index;
    ring->available.heads[index % SIZE] = 0;
    __atomic_store_n(&ring->available.index, (uint16_t)(index + 1), __ATOMIC_RELEASE);
    if (write(kick[number], &one, 8) != 8)
        fail("the back end can't be kicked: %s", strerror(errno));
    while (__atomic_load_n(&ring->used.index, __ATOMIC_ACQUIRE) == index) {
        struct pollfd files[2] = {{call[number], POLLIN, 0}, {back_end, POLLIN, 0}};
        if (poll(files, 2, -1) < 0)
            fail("can't wait: %s", strerror(errno));
        if (files[1].revents)
            fail("the back end has hung up, or says what nobody asked for");
        if (read(call[number], &one, 8) < 0 && errno != EAGAIN)
            fail("can't wait: %s", strerror(errno));
    }
    return ring->used.ring[index % SIZE].length;
}

static void play_chain(void)
{
    uint16_t readable, writable;
    uint32_t lengths[SIZE], opcode = 0;
    uint8_t kind = CHAIN;
    take_all(&readable, 2);
    take_all(&writable, 2);
    if ((uint32_t)readable + writable > SIZE || readable + writable == 0)
        fail("a chain has %u pieces, and the queue holds 1 to %d", readable + writable, SIZE);
    take_all(lengths, sizeof *lengths * ((size_t)readable + writable));
    struct descriptor table[SIZE];
    uint32_t length = lay(table, 0, readable, lengths, memory->request, 0);
    uint32_t room = lay(table, readable, writable, lengths + readable, memory->reply, WRITABLE);
    table[readable + writable - 1].flags &= (uint16_t)~NEXT;
    take_all(memory->request, length);
    if (length >= 8)
        memcpy(&opcode, memory->request + 4, 4);
    unsigned number = opcode == 2 || opcode == 36 || opcode == 42 ? 0 : 1;
    memcpy(memory->ring[number].table, table, sizeof *table * ((size_t)readable + writable));
    uint32_t used = offer(number);
    if (used > room)
        fail("the back end has written %u bytes into a room of %u", used, room);
    put(&kind, 1);
    put(&used, 4);
    put(memory->reply, used);
}

static uint8_t *window;
static uint64_t window_size;

static void open_window(const char *path)
{
    struct stat about;
    int file = open(path, O_RDWR | O_CLOEXEC);
    if (file < 0 || fstat(file, &about))
        fail("can't open the window %s: %s", path, strerror(errno));
    window_size = (uint64_t)about.st_size;
    window = mmap(NULL, window_size, PROT_READ | PROT_WRITE, MAP_SHARED, file, 0);
    if (window == MAP_FAILED)
        fail("can't map the window %s: %s", path, strerror(errno));
    close(file);
}

static void play_access(uint8_t kind)
{
    static uint8_t bytes[ACCESS];
    uint64_t at;
    uint32_t length, none = 0;
    take_all(&at, 8);
    take_all(&length, 4);
    if (length > ACCESS)
        fail("a load or store has more than %d bytes", ACCESS);
    if (kind == STORE)
        take_all(bytes, length);
    bool inside = at <= window_size && length <= window_size - at;
    uint8_t status = inside ? DONE : UNMAPPED;
    if (kind == STORE && inside)
        memcpy(window + at, bytes, length);
    put(&kind, 1);
    put(&status, 1);
    if (kind == LOAD) {
        put(inside ? &length : &none, 4);
        put(window + at, inside ? length : 0);
    }
}

int main(int words, char **word)
{
    uint8_t header[12], kind;
    if (words == 4 && strcmp(word[1], "--window") == 0)
        open_window(word[2]);
    else if (words != 2 || word[1][0] == '-') {
        fputs("usage: driver [--window FILE] SOCKET < STREAM > ANSWERS\n", stderr);
        return 2;
    }
    start(word[words - 1]);
    take_all(header, sizeof header);
    if (memcmp(header, "DAXWIRE1", 8) != 0)
        fail("standard input is no chain stream");
    while (take(&kind, 1)) {
        if (kind == CHAIN)
            play_chain();
        else if (kind == LOAD || kind == STORE)
            play_access(kind);
        else
            fail("a frame of no known kind, %u", kind);
        if (fflush(stdout) != 0)
            fail("standard output failed: %s", strerror(errno));
    }
    return 0;
}
