/* bridge: a vhost-user back end for virtio-fs, over a device that speaks the chain stream.
 *
 *     bridge [--record PREFIX] [--window FILE] [--tag NAME] SOCKET COMMAND...
 *
 * It listens at SOCKET for the front end of one virtual machine (QEMU's vhost-user-fs-pci, say), and starts COMMAND with a
 * pipe at each end. Each chain that the guest offers on any queue goes to COMMAND as a frame of a chain stream
 * (docs/formats.md), and COMMAND's answer goes into the chain's writable part. `daxwire serve` is such a command.
 *
 *     --record PREFIX   writes all that COMMAND is given to PREFIX.stream, and all that it answers to PREFIX.answers
 *     --window FILE     the DAX window: the file whose bytes the guest has as shared memory region 0
 *     --tag NAME        the name to mount by, for front ends that ask for the configuration space (user-mode Linux; QEMU has a
 *                       tag of its own, and doesn't ask)
 *
 * A DAX window's bytes are COMMAND's, and the guest loads and stores them without a word to the bridge. So the bridge keeps
 * FILE as a copy: what SETUPMAPPING maps is fetched by loads, and fetched again after a WRITE or SETATTR of its file; what the
 * guest stored is found by comparing, and handed on by stores, before each chain.
 *
 * It ends when the front end hangs up, or on SIGTERM and SIGINT. A guest that left without DESTROY gets one, so that COMMAND
 * closes its handles. The status is 0, or 1 with one line on standard error that says why.
 */
#define _GNU_SOURCE
#include <errno.h>
#include <fcntl.h>
#include <poll.h>
#include <signal.h>
#include <stdarg.h>
#include <stdbool.h>
#include <stdint.h>
#include <stdio.h>
#include <stdlib.h>
#include <string.h>
#include <sys/mman.h>
#include <sys/socket.h>
#include <sys/stat.h>
#include <sys/un.h>
#include <sys/wait.h>
#include <unistd.h>

#if __BYTE_ORDER__ != __ORDER_LITTLE_ENDIAN__
#error "rings, messages and frames are little-endian, and are read in place"
#endif

enum {
    PAGE = 4096,
    WINDOW_PAGES = 131072,        /* of a chain stream, at most */
    PIECES = 1024,                /* of a chain's readable and of its writable part, at most */
    PART = 1052672,               /* bytes of either part, at most */
    ACCESS = 1048576,             /* bytes of a load or store, at most */
    STREAM = 268435456,           /* bytes that `daxwire` reads, at most */
    QUEUES = 256,                 /* vhost-user's messages name a queue by one byte */
    REGIONS = 8,
};

/* ---- What went wrong, and the end ---- */

static const char *socket_path;
static volatile sig_atomic_t told_to_stop;
static struct {
    unsigned long chains, loads, stores;
} count;

static void say(const char *form, ...) __attribute__((format(printf, 1, 2)));
static void say(const char *form, ...)
{
    va_list words;
    va_start(words, form);
    fputs("bridge: ", stderr);
    vfprintf(stderr, form, words);
    fputc('\n', stderr);
    va_end(words);
}

/* Says why the bridge can't go on, and ends it; what was recorded so far is written out. */
#define fail(...) (say(__VA_ARGS__), exit(1))

static void remove_socket(void)
{
    if (socket_path)
        unlink(socket_path);
}

/* The first signal ends the bridge in order; a second one, where the device doesn't answer, at once. */
static void stop(int signal)
{
    (void)signal;
    if (told_to_stop)
        _exit(1);
    told_to_stop = 1;
}

/* ---- The device: COMMAND, which reads frames and writes answers ---- */

enum { CHAIN = 1, LOAD = 2, STORE = 3, MALFORMED = 255 };
enum { DONE = 0, UNMAPPED = 1, READ_ONLY = 2, PAST_THE_END = 3 };

static struct {
    pid_t process;                        /* 0 where there is none, or it has ended */
    FILE *frames, *answers;               /* to it and from it */
    FILE *stream_record, *answers_record; /* NULL where nothing is recorded */
    uint64_t sent;                        /* bytes of the stream */
} device;

static void end_process(void)
{
    if (device.process > 0)
        kill(device.process, SIGTERM);
}

/* Says why the device's output ended before its answer came. */
static void device_ended(void)
{
    int status;
    if (told_to_stop)
        fail("told to stop while the device owes an answer");
    if (waitpid(device.process, &status, 0) < 0)
        fail("the device is gone: %s", strerror(errno));
    device.process = 0;
    if (WIFSIGNALED(status))
        fail("the device was ended by signal %d, after %lu chains", WTERMSIG(status), count.chains);
    if (device.sent > STREAM)
        fail("the stream has reached its limit of %d bytes, and the device reads no further: %lu chains were answered", STREAM, count.chains);
    fail("the device ended with status %d, after %lu chains", WEXITSTATUS(status), count.chains);
}

static void send_bytes(const void *bytes, size_t length)
{
    device.sent += length;
    if (device.stream_record)
        fwrite(bytes, 1, length, device.stream_record);
    if (length && fwrite(bytes, 1, length, device.frames) != length)
        device_ended();
}

static void take_bytes(void *bytes, size_t length)
{
    if (fflush(device.frames) != 0)
        device_ended();
    if (length && fread(bytes, 1, length, device.answers) != length)
        device_ended();
    if (device.answers_record)
        fwrite(bytes, 1, length, device.answers_record);
}

static void take_kind(uint8_t wanted)
{
    uint8_t kind;
    take_bytes(&kind, 1);
    if (kind == MALFORMED) {
        uint8_t reason;
        uint64_t at;
        take_bytes(&reason, 1);
        take_bytes(&at, 8);
        fail("the device calls the stream malformed: reason %u at byte %llu", reason, (unsigned long long)at);
    }
    if (kind != wanted)
        fail("the device answers with a frame of kind %u, where %u is due", kind, wanted);
}

/* Loads an interval of the window: its bytes are there where the answer is DONE. */
static uint8_t load(uint64_t at, uint32_t length, uint8_t *bytes)
{
    uint8_t kind = LOAD, status;
    uint32_t given;
    send_bytes(&kind, 1);
    send_bytes(&at, 8);
    send_bytes(&length, 4);
    take_kind(LOAD);
    take_bytes(&status, 1);
    take_bytes(&given, 4);
    if (given != (status == DONE ? length : 0))
        fail("the device answers a load of %u bytes with status %u and %u bytes", length, status, given);
    take_bytes(bytes, given);
    count.loads++;
    return status;
}

static uint8_t store(uint64_t at, uint32_t length, const uint8_t *bytes)
{
    uint8_t kind = STORE, status;
    send_bytes(&kind, 1);
    send_bytes(&at, 8);
    send_bytes(&length, 4);
    send_bytes(bytes, length);
    take_kind(STORE);
    take_bytes(&status, 1);
    count.stores++;
    return status;
}

static FILE *record(const char *prefix, const char *ending)
{
    char path[4096];
    if (!prefix)
        return NULL;
    if (snprintf(path, sizeof path, "%s.%s", prefix, ending) >= (int)sizeof path)
        fail("the path %s is too long", prefix);
    FILE *file = fopen(path, "wbe");
    if (!file)
        fail("can't write %s: %s", path, strerror(errno));
    return file;
}

static void start_device(char **command, uint32_t pages)
{
    int to[2], from[2];
    if (pipe2(to, O_CLOEXEC) || pipe2(from, O_CLOEXEC))
        fail("no pipe to the device: %s", strerror(errno));
    device.process = fork();
    if (device.process < 0)
        fail("no process for the device: %s", strerror(errno));
    if (device.process == 0) {
        dup2(to[0], 0);
        dup2(from[1], 1);
        execvp(command[0], command);
        say("can't run %s: %s", command[0], strerror(errno));
        _exit(127);
    }
    atexit(end_process);
    close(to[0]);
    close(from[1]);
    device.frames = fdopen(to[1], "wb");
    device.answers = fdopen(from[0], "rb");
    if (!device.frames || !device.answers)
        fail("no pipe to the device: %s", strerror(errno));
    send_bytes("DAXWIRE1", 8);
    send_bytes(&pages, 4);
}

static void close_record(FILE *file)
{
    if (file && (ferror(file) || fclose(file) != 0))
        fail("the recording isn't whole: %s", strerror(errno));
}

/* Closes the device's input, and sees to it that the device ends well. */
static int end_device(void)
{
    int status;
    if (fclose(device.frames) != 0)
        device_ended();
    if (getc(device.answers) != EOF)
        fail("the device has answered more than it was asked");
    if (waitpid(device.process, &status, 0) < 0)
        fail("the device is gone: %s", strerror(errno));
    device.process = 0;
    if (status != 0)
        fail("the device ended with wait status 0x%x at the stream's end", status);
    close_record(device.stream_record);
    close_record(device.answers_record);
    say("%lu chains, %lu loads, %lu stores", count.chains, count.loads, count.stores);
    return 0;
}

/* ---- The guest's memory ---- */

static struct region {
    uint64_t guest, size, user; /* its guest-physical address, and the front end's own */
    uint8_t *bytes;
    size_t mapped;
    void *map;
} regions[REGIONS];
static unsigned region_count;

static bool lies_in(uint64_t at, uint64_t length, uint64_t start, uint64_t size)
{
    return at >= start && at - start <= size && length <= size - (at - start);
}

/* The bytes of an interval of the guest's memory, by guest-physical address, or NULL. */
static uint8_t *guest_bytes(uint64_t at, uint64_t length)
{
    for (unsigned i = 0; i < region_count; i++)
        if (lies_in(at, length, regions[i].guest, regions[i].size))
            return regions[i].bytes + (at - regions[i].guest);
    return NULL;
}

/* The same by the front end's address, in which it tells where rings lie. */
static uint8_t *ring_bytes(uint64_t at, uint64_t length)
{
    for (unsigned i = 0; i < region_count; i++)
        if (lies_in(at, length, regions[i].user, regions[i].size))
            return regions[i].bytes + (at - regions[i].user);
    return NULL;
}

/* ---- The window ---- */

static struct {
    uint8_t *bytes; /* what the guest has; NULL where there is no window */
    uint8_t *known; /* what the device has, as far as the bridge knows */
    uint32_t pages;
    struct page {
        uint64_t node, offset; /* the file, and the page's place in it; node 0: nothing is mapped */
        bool writable;
    } *page;
} window;

static void open_window(const char *path)
{
    struct stat about;
    int file = open(path, O_RDWR | O_CLOEXEC);
    if (file < 0 || fstat(file, &about))
        fail("can't open the window %s: %s", path, strerror(errno));
    if (about.st_size == 0 || about.st_size % PAGE || about.st_size / PAGE > WINDOW_PAGES)
        fail("the window %s has %lld bytes, and not 1 to %d pages of %d", path, (long long)about.st_size, WINDOW_PAGES, PAGE);
    window.pages = (uint32_t)(about.st_size / PAGE);
    window.bytes = mmap(NULL, (size_t)about.st_size, PROT_READ | PROT_WRITE, MAP_SHARED, file, 0);
    window.known = calloc(window.pages, PAGE);
    window.page = calloc(window.pages, sizeof *window.page);
    if (window.bytes == MAP_FAILED || !window.known || !window.page)
        fail("no memory for the window: %s", strerror(errno));
    close(file);
}

/* Puts the device's bytes into the guest's copy, and leaves those that were known already: where the guest stores meanwhile,
 * its bytes stay for the next hand_on. */
static void put_fresh(uint64_t at, const uint8_t *fresh, size_t length)
{
    if (memcmp(fresh, window.known + at, length) == 0)
        return;
    for (size_t i = 0; i < length; i++)
        if (fresh[i] != window.known[at + i])
            window.bytes[at + i] = window.known[at + i] = fresh[i];
}

/* Fetches an interval that is mapped to one piece of a file. Its bytes at and past the file's end are zeros; the end is found by
 * halving. */
static void fetch(uint64_t at, uint64_t end)
{
    static uint8_t fresh[ACCESS];
    uint64_t step = ACCESS;
    while (at < end) {
        uint32_t length = (uint32_t)(end - at < step ? end - at : step);
        uint8_t status = load(at, length, fresh);
        if (status == DONE) {
            put_fresh(at, fresh, length);
            at += length;
        } else if (status != PAST_THE_END) {
            fail("the device refuses a load at %llu of its window, which is mapped: status %u", (unsigned long long)at, status);
        } else if (length > 1) {
            step = length / 2;
        } else {
            memset(fresh, 0, sizeof fresh);
            for (; at < end; at += length) {
                length = (uint32_t)(end - at < ACCESS ? end - at : ACCESS);
                put_fresh(at, fresh, length);
            }
        }
    }
}

/* Stores as many of the bytes as lie before the file's end, and says how many. */
static uint32_t store_within(uint64_t at, uint32_t length, const uint8_t *bytes)
{
    uint32_t stored = 0, past = length;
    uint8_t status = store(at, length, bytes);
    if (status == DONE)
        return length;
    if (status != PAST_THE_END)
        fail("the device refuses a store at %llu of its window, which is mapped: status %u", (unsigned long long)at, status);
    while (past - stored > 1) {
        uint32_t middle = stored + (past - stored) / 2;
        if (store(at, middle, bytes) == DONE)
            stored = middle;
        else
            past = middle;
    }
    return stored;
}

/* Hands on what the guest stored into one page. */
static void hand_on_page(uint64_t at)
{
    uint8_t now[PAGE], *known = window.known + at;
    uint32_t first = 0, end = PAGE, stored;
    memcpy(now, window.bytes + at, PAGE); /* the guest may store meanwhile: only these bytes count */
    if (memcmp(now, known, PAGE) == 0)
        return;
    while (now[first] == known[first])
        first++;
    while (now[end - 1] == known[end - 1])
        end--;
    stored = store_within(at + first, end - first, now + first);
    if (first + stored < end) { /* what lies past the file's end is no part of it */
        memset(now + first + stored, 0, PAGE - first - stored);
        memset(window.bytes + at + first + stored, 0, PAGE - first - stored);
    }
    memcpy(known, now, PAGE);
}

static void hand_on(void)
{
    for (uint32_t i = 0; i < window.pages; i++)
        if (window.page[i].node && window.page[i].writable && memcmp(window.bytes + (uint64_t)i * PAGE, window.known + (uint64_t)i * PAGE, PAGE))
            hand_on_page((uint64_t)i * PAGE);
}

/* Fetches what the window has of an interval of a file. */
static void fetch_file(uint64_t node, uint64_t start, uint64_t end)
{
    for (uint32_t i = 0, n; i < window.pages; i += n) {
        n = 1;
        struct page *page = &window.page[i];
        if (page->node != node || page->offset >= end || page->offset + PAGE <= start)
            continue;
        while (i + n < window.pages && page[n].node == node && page[n].offset == page->offset + (uint64_t)n * PAGE && page[n].offset < end)
            n++;
        fetch((uint64_t)i * PAGE, (uint64_t)(i + n) * PAGE);
    }
}

static void map(uint64_t node, uint64_t offset, uint64_t length, bool writable, uint64_t at)
{
    if (!lies_in(at, length, 0, (uint64_t)window.pages * PAGE))
        fail("the device maps %llu bytes at %llu, which the window hasn't", (unsigned long long)length, (unsigned long long)at);
    for (uint64_t i = 0; i < length / PAGE; i++)
        window.page[at / PAGE + i] = (struct page){node, offset + i * PAGE, writable};
    memcpy(window.known + at, window.bytes + at, length);
    fetch(at, at + length);
}

static void unmap(uint64_t at, uint64_t length)
{
    if (lies_in(at, length, 0, (uint64_t)window.pages * PAGE))
        for (uint64_t i = 0; i < length / PAGE; i++)
            window.page[at / PAGE + i].node = 0;
}

/* ---- Chains and the requests in them ---- */

/* A chain, gathered. Its lengths are those of the readable pieces, then those of the writable ones. */
static struct chain {
    uint32_t lengths[2 * PIECES];
    uint8_t *room[PIECES];
    uint16_t readable, writable;
    uint32_t request_length, reply_room;
    uint8_t request[PART], reply[PART];
} gathered;

/* What the window and the session must know of requests (Linux uapi fuse.h). */

enum { SETATTR = 4, WRITE = 16, INIT = 26, DESTROY = 38, SETUPMAPPING = 48, REMOVEMAPPING = 49 };
enum { HEADER = 40, REPLY_HEADER = 16 };

static bool in_session;

static uint64_t u64(const uint8_t *at)
{
    uint64_t number;
    memcpy(&number, at, 8);
    return number;
}

static uint32_t u32(const uint8_t *at)
{
    uint32_t number;
    memcpy(&number, at, 4);
    return number;
}

static uint32_t opcode_of(const struct chain *chain)
{
    return chain->request_length >= HEADER ? u32(chain->request + 4) : 0;
}

/* Follows a request that the device has carried out, so that its bytes are a whole request. */
static void follow(const struct chain *chain)
{
    const uint8_t *body = chain->request + HEADER;
    uint32_t opcode = opcode_of(chain);
    uint64_t node = u64(chain->request + 16);
    if (opcode == INIT || opcode == DESTROY)
        in_session = opcode == INIT;
    if (!window.bytes)
        return;
    if (opcode == SETUPMAPPING)
        map(node, u64(body + 8), u64(body + 16), u64(body + 24) & 1, u64(body + 32));
    if (opcode == REMOVEMAPPING)
        for (const uint8_t *it = body + 4; it < chain->request + chain->request_length; it += 16)
            unmap(u64(it), u64(it + 8));
    if (opcode == DESTROY)
        unmap(0, (uint64_t)window.pages * PAGE);
    if (opcode == WRITE)
        fetch_file(node, u64(body + 8), u64(body + 8) + u32(body + 16));
    if (opcode == SETATTR)
        fetch_file(node, 0, UINT64_MAX);
}

/* Hands a chain to the device, takes its reply, and returns the reply's length. */
static uint32_t answer(struct chain *chain)
{
    uint8_t kind = CHAIN;
    uint32_t length;
    send_bytes(&kind, 1);
    send_bytes(&chain->readable, 2);
    send_bytes(&chain->writable, 2);
    send_bytes(chain->lengths, sizeof *chain->lengths * ((size_t)chain->readable + chain->writable));
    send_bytes(chain->request, chain->request_length);
    take_kind(CHAIN);
    take_bytes(&length, 4);
    if (length > chain->reply_room)
        fail("the device answers %u bytes to a chain that has room for %u", length, chain->reply_room);
    take_bytes(chain->reply, length);
    count.chains++;
    if (chain->request_length >= HEADER && length >= REPLY_HEADER && u32(chain->reply + 4) == 0)
        follow(chain);
    return length;
}

/* Sends the DESTROY that the guest owes. */
static void destroy(void)
{
    static struct chain chain = {.lengths = {HEADER, REPLY_HEADER}, .readable = 1, .writable = 1, .request_length = HEADER, .reply_room = REPLY_HEADER};
    uint32_t length = HEADER, opcode = DESTROY;
    uint64_t unique = UINT64_MAX;
    memcpy(chain.request, &length, 4);
    memcpy(chain.request + 4, &opcode, 4);
    memcpy(chain.request + 8, &unique, 8);
    say("the guest has left without DESTROY, and gets one");
    hand_on();
    answer(&chain);
}

/* ---- Queues (VIRTIO 1.2, section 2.7) ---- */

enum { NEXT = 1, WRITABLE = 2, INDIRECT = 4, NO_INTERRUPT = 1 };

struct descriptor {
    uint64_t address;
    uint32_t length;
    uint16_t flags, next;
};
struct available {
    uint16_t flags, index, heads[];
};
struct used {
    uint16_t flags, index;
    struct {
        uint32_t head, length;
    } ring[];
};

static struct queue {
    uint16_t size, seen; /* seen: how many chains were taken, and handed back */
    uint64_t descriptors, available, used;
    int kick, call;
    bool off;
} queues[QUEUES];

static void add_piece(unsigned number, struct chain *chain, const struct descriptor *piece)
{
    bool writable = piece->flags & WRITABLE;
    uint16_t *pieces = writable ? &chain->writable : &chain->readable;
    uint32_t *total = writable ? &chain->reply_room : &chain->request_length;
    uint8_t *bytes = guest_bytes(piece->address, piece->length);
    if (piece->flags & INDIRECT)
        fail("queue %u: an indirect descriptor, which wasn't offered", number);
    if (!bytes)
        fail("queue %u: a descriptor has %u bytes at 0x%llx, which the guest's memory hasn't", number, piece->length, (unsigned long long)piece->address);
    if (!writable && chain->writable)
        fail("queue %u: a readable descriptor follows a writable one", number);
    if (*pieces == PIECES || piece->length > PART - *total)
        fail("queue %u: a part of a chain has more than the %d pieces or %d bytes of a frame", number, PIECES, PART);
    chain->lengths[chain->readable + chain->writable] = piece->length;
    if (writable)
        chain->room[*pieces] = bytes;
    else
        memcpy(chain->request + *total, bytes, piece->length);
    *total += piece->length;
    ++*pieces;
}

static void gather(unsigned number, uint16_t head, struct chain *chain)
{
    struct queue *queue = &queues[number];
    const struct descriptor *table = (void *)ring_bytes(queue->descriptors, sizeof *table * queue->size);
    struct descriptor piece = {.flags = NEXT, .next = head};
    chain->readable = chain->writable = 0;
    chain->request_length = chain->reply_room = 0;
    for (uint32_t i = 0; piece.flags & NEXT; i++) {
        if (piece.next >= queue->size || i == queue->size)
            fail("queue %u: a chain leaves its table of %u descriptors, or goes round in it", number, queue->size);
        piece = table[piece.next];
        add_piece(number, chain, &piece);
    }
}

static void scatter(const struct chain *chain, uint32_t length)
{
    const uint8_t *from = chain->reply;
    for (unsigned i = 0; length; i++) {
        uint32_t room = chain->lengths[chain->readable + i], part = length < room ? length : room;
        memcpy(chain->room[i], from, part);
        from += part;
        length -= part;
    }
}

/* Hands a chain back, and calls the guest where it wants that. */
static void hand_back(unsigned number, uint16_t head, uint32_t length)
{
    struct queue *queue = &queues[number];
    struct used *used = (void *)ring_bytes(queue->used, sizeof *used + 8 * (size_t)queue->size);
    struct available *available = (void *)ring_bytes(queue->available, sizeof *available);
    uint64_t one = 1;
    used->ring[queue->seen % queue->size].head = head;
    used->ring[queue->seen % queue->size].length = length;
    __atomic_store_n(&used->index, ++queue->seen, __ATOMIC_RELEASE);
    __atomic_thread_fence(__ATOMIC_SEQ_CST);
    if (queue->call >= 0 && !(available->flags & NO_INTERRUPT) && write(queue->call, &one, 8) != 8)
        fail("queue %u: the front end can't be called: %s", number, strerror(errno));
}

/* Serves each chain that the queue offers. */
static void serve(unsigned number)
{
    struct queue *queue = &queues[number];
    if (queue->size == 0 || queue->kick < 0 || queue->off)
        return;
    struct available *available = (void *)ring_bytes(queue->available, sizeof *available + 2 * (size_t)queue->size);
    if (!available || !ring_bytes(queue->used, sizeof(struct used) + 8 * (size_t)queue->size) || !ring_bytes(queue->descriptors, sizeof(struct descriptor) * (size_t)queue->size))
        fail("queue %u: its rings don't lie in the guest's memory", number);
    while (__atomic_load_n(&available->index, __ATOMIC_ACQUIRE) != queue->seen) {
        uint16_t head = available->heads[queue->seen % queue->size];
        gather(number, head, &gathered);
        if (in_session && opcode_of(&gathered) == INIT)
            destroy();
        hand_on();
        uint32_t length = answer(&gathered);
        scatter(&gathered, length);
        hand_back(number, head, length);
    }
}

/* ---- Messages of the front end (QEMU's docs/interop/vhost-user.rst) ---- */

enum {
    GET_FEATURES = 1, SET_FEATURES = 2, SET_OWNER = 3, RESET_OWNER = 4, SET_MEM_TABLE = 5,
    SET_VRING_NUM = 8, SET_VRING_ADDR = 9, SET_VRING_BASE = 10, GET_VRING_BASE = 11,
    SET_VRING_KICK = 12, SET_VRING_CALL = 13, SET_VRING_ERR = 14,
    GET_PROTOCOL_FEATURES = 15, SET_PROTOCOL_FEATURES = 16, GET_QUEUE_NUM = 17, SET_VRING_ENABLE = 18,
    SET_BACKEND_REQUESTS = 21, GET_CONFIG = 24,
};

#define VERSION_1 (1ull << 32)         /* no indirect descriptors, no event indices: they aren't offered */
#define PROTOCOL_FEATURES (1ull << 30)
#define MANY_QUEUES 1ull               /* the protocol's features: more queues than one, */
#define CONFIGURATION (1ull << 9)      /* the configuration space, */
#define BACKEND_REQUESTS (1ull << 5)   /* and a socket for requests of the back end, without which user-mode Linux finds no interrupt */
#define NO_FILE 0x100u                 /* in the number of SET_VRING_KICK, _CALL and _ERR */

struct message {
    uint32_t request, flags, size;
    union {
        uint64_t number;
        struct { uint32_t queue, number; } ring;
        struct { uint32_t queue, flags; uint64_t descriptors, used, available, log; } addresses;
        struct { uint32_t count, padding; struct { uint64_t guest, size, user, offset; } region[REGIONS]; } memory;
        struct { uint32_t offset, size, flags; uint8_t bytes[256]; } configuration;
        uint8_t bytes[512];
    };
    int files[REGIONS]; /* not a part of the message: those that came beside it */
    unsigned file_count;
} __attribute__((packed, aligned(8)));

enum { MESSAGE_HEADER = 12 };

/* Takes a message. Answers false where the front end has hung up. */
static bool take_message(int front_end, struct message *message)
{
    union {
        char bytes[CMSG_SPACE(sizeof message->files)];
        struct cmsghdr aligned;
    } beside;
    struct iovec part = {message, MESSAGE_HEADER};
    struct msghdr taken = {.msg_iov = &part, .msg_iovlen = 1, .msg_control = beside.bytes, .msg_controllen = sizeof beside.bytes};
    memset(message, 0, sizeof *message);
    ssize_t length = recvmsg(front_end, &taken, MSG_CMSG_CLOEXEC | MSG_WAITALL);
    if (length <= 0)
        return false;
    for (struct cmsghdr *it = CMSG_FIRSTHDR(&taken); it; it = CMSG_NXTHDR(&taken, it))
        if (it->cmsg_level == SOL_SOCKET && it->cmsg_type == SCM_RIGHTS) {
            message->file_count = (unsigned)((it->cmsg_len - CMSG_LEN(0)) / sizeof(int));
            memcpy(message->files, CMSG_DATA(it), message->file_count * sizeof(int));
        }
    if (length != MESSAGE_HEADER || message->size > sizeof message->bytes)
        fail("the front end's message %u is cut, or too long", message->request);
    if (message->size && recv(front_end, message->bytes, message->size, MSG_WAITALL) != (ssize_t)message->size)
        fail("the front end's message %u is cut", message->request);
    return true;
}

static void send_reply(int front_end, const struct message *reply)
{
    if (send(front_end, reply, MESSAGE_HEADER + reply->size, MSG_NOSIGNAL) != (ssize_t)(MESSAGE_HEADER + reply->size))
        fail("the front end takes no answer: %s", strerror(errno));
}

static void reply_number(int front_end, const struct message *message, uint64_t number)
{
    struct message reply = {.request = message->request, .flags = 1 | 4, .size = 8};
    reply.number = number;
    send_reply(front_end, &reply);
}

static const char *tag; /* NULL where no configuration space is offered */

/* Answers a piece of the configuration space (VIRTIO 1.2, section 5.11.4): the tag, and one request queue. */
static void reply_configuration(int front_end, const struct message *message)
{
    struct {
        char tag[36];
        uint32_t request_queues;
    } space = {.request_queues = 1};
    struct message reply = *message;
    uint32_t offset = message->configuration.offset, size = message->configuration.size;
    memcpy(space.tag, tag, strlen(tag)); /* without its end, where it has all 36 bytes */
    reply.flags = 1 | 4;
    if (size > sizeof reply.configuration.bytes || message->size != 12 + size)
        fail("the front end asks for %u bytes of configuration in a message of %u", size, message->size);
    memset(reply.configuration.bytes, 0, size);
    for (uint32_t i = 0; i < size && offset + (uint64_t)i < sizeof space; i++)
        reply.configuration.bytes[i] = ((uint8_t *)&space)[offset + i];
    send_reply(front_end, &reply);
}

static void set_memory(const struct message *message)
{
    for (unsigned i = 0; i < region_count; i++)
        munmap(regions[i].map, regions[i].mapped);
    region_count = message->memory.count;
    if (region_count > REGIONS || region_count != message->file_count)
        fail("the front end has %u regions of memory and %u files for them", region_count, message->file_count);
    for (unsigned i = 0; i < region_count; i++) {
        struct region *region = &regions[i];
        uint64_t offset = message->memory.region[i].offset;
        region->guest = message->memory.region[i].guest;
        region->size = message->memory.region[i].size;
        region->user = message->memory.region[i].user;
        region->mapped = region->size + offset;
        region->map = mmap(NULL, region->mapped, PROT_READ | PROT_WRITE, MAP_SHARED | MAP_NORESERVE, message->files[i], 0);
        if (region->map == MAP_FAILED)
            fail("can't map the guest's memory (QEMU wants memory-backend-memfd with share=on): %s", strerror(errno));
        region->bytes = (uint8_t *)region->map + offset;
        close(message->files[i]);
    }
}

/* Takes the file of a kick or a call, in place of an older one. */
static void set_file(int *file, const struct message *message)
{
    if (*file >= 0)
        close(*file);
    *file = message->number & NO_FILE || message->file_count == 0 ? -1 : message->files[0];
}

static struct queue *queue_of(const struct message *message, uint32_t number)
{
    if (number >= QUEUES)
        fail("the front end's message %u names queue %u", message->request, number);
    return &queues[number];
}

static void set_size(struct queue *queue, uint32_t size)
{
    if (size == 0 || size > 32768 || (size & (size - 1)))
        fail("a queue of %u descriptors, which is no power of two up to 32,768", size);
    queue->size = (uint16_t)size;
}

/* Carries out a message that is about one queue. */
static void set_queue(int front_end, const struct message *message)
{
    bool has_file = message->request >= SET_VRING_KICK && message->request <= SET_VRING_ERR;
    struct queue *queue = queue_of(message, has_file ? message->number & 0xff : message->ring.queue);
    int unused = -1;
    switch (message->request) {
    case SET_VRING_NUM: set_size(queue, message->ring.number); break;
    case SET_VRING_BASE: queue->seen = (uint16_t)message->ring.number; break;
    case SET_VRING_ENABLE: queue->off = message->ring.number == 0; break;
    case SET_VRING_KICK: set_file(&queue->kick, message); break;
    case SET_VRING_CALL: set_file(&queue->call, message); break;
    case SET_VRING_ERR: set_file(&unused, message); close(unused); break;
    case SET_VRING_ADDR:
        queue->descriptors = message->addresses.descriptors;
        queue->available = message->addresses.available;
        queue->used = message->addresses.used;
        break;
    case GET_VRING_BASE:
        if (queue->kick >= 0)
            close(queue->kick);
        queue->kick = -1;
        reply_number(front_end, message, message->ring.queue | (uint64_t)queue->seen << 32);
        break;
    }
    serve((unsigned)(queue - queues)); /* what it offered before it was started */
}

static void carry_out(int front_end, const struct message *message)
{
    switch (message->request) {
    case GET_FEATURES: reply_number(front_end, message, VERSION_1 | PROTOCOL_FEATURES); break;
    case GET_PROTOCOL_FEATURES: reply_number(front_end, message, MANY_QUEUES | (tag ? CONFIGURATION | BACKEND_REQUESTS : 0)); break;
    case GET_CONFIG: reply_configuration(front_end, message); break;
    case SET_BACKEND_REQUESTS: break; /* the bridge has none, and keeps the socket open */
    case GET_QUEUE_NUM: reply_number(front_end, message, QUEUES); break;
    case SET_FEATURES: case SET_PROTOCOL_FEATURES: case SET_OWNER: case RESET_OWNER: break;
    case SET_MEM_TABLE: set_memory(message); break;
    case SET_VRING_NUM: case SET_VRING_ADDR: case SET_VRING_BASE: case GET_VRING_BASE:
    case SET_VRING_KICK: case SET_VRING_CALL: case SET_VRING_ERR: case SET_VRING_ENABLE:
        set_queue(front_end, message);
        break;
    default: fail("the front end's message %u, which wasn't offered", message->request);
    }
}

/* ---- The whole ---- */

static int listen_at(const char *path)
{
    struct sockaddr_un address = {.sun_family = AF_UNIX};
    int listening = socket(AF_UNIX, SOCK_STREAM | SOCK_CLOEXEC, 0);
    if (strlen(path) >= sizeof address.sun_path)
        fail("the socket's path is longer than %zu bytes: %s", sizeof address.sun_path - 1, path);
    strcpy(address.sun_path, path);
    if (listening < 0 || bind(listening, (void *)&address, sizeof address) || listen(listening, 1))
        fail("no socket at %s: %s", path, errno == EADDRINUSE ? "there is a file already; remove it if no bridge runs" : strerror(errno));
    socket_path = path;
    atexit(remove_socket);
    return listening;
}

/* Waits until one of the files has something. Answers false where the bridge was told to stop. */
static bool wait_for(struct pollfd *files, nfds_t number)
{
    files[0] = (struct pollfd){fileno(device.answers), POLLIN, 0};
    while (!told_to_stop) {
        int ready = poll(files, number, 1000); /* a signal just before it is seen after a second */
        if (ready < 0 && errno != EINTR)
            fail("can't wait: %s", strerror(errno));
        if (ready <= 0)
            continue;
        if (files[0].revents & POLLIN)
            fail("the device writes what nobody asked for");
        if (files[0].revents)
            device_ended();
        return true;
    }
    return false;
}

/* Serves the front end until it hangs up. */
static void serve_all(int front_end)
{
    static struct pollfd files[2 + QUEUES];
    static struct message message;
    for (;;) {
        files[1] = (struct pollfd){front_end, POLLIN, 0};
        for (unsigned i = 0; i < QUEUES; i++)
            files[2 + i] = (struct pollfd){queues[i].kick, POLLIN, 0};
        if (!wait_for(files, 2 + QUEUES))
            return;
        for (unsigned i = 0; i < QUEUES; i++) {
            uint64_t kicks;
            if (files[2 + i].revents & POLLIN && read(queues[i].kick, &kicks, 8) == 8)
                serve(i);
        }
        if (files[1].revents) {
            if (!take_message(front_end, &message))
                return;
            carry_out(front_end, &message);
        }
    }
}

static void catch_signals(void)
{
    struct sigaction stopping = {.sa_handler = stop};
    sigaction(SIGTERM, &stopping, NULL);
    sigaction(SIGINT, &stopping, NULL);
    signal(SIGPIPE, SIG_IGN);
}

int main(int words, char **word)
{
    const char *prefix = NULL;
    int next = 1;
    for (; next + 1 < words && strncmp(word[next], "--", 2) == 0; next += 2) {
        if (strcmp(word[next], "--record") == 0)
            prefix = word[next + 1];
        else if (strcmp(word[next], "--window") == 0)
            open_window(word[next + 1]);
        else if (strcmp(word[next], "--tag") == 0 && strlen(word[next + 1]) <= 36)
            tag = word[next + 1];
        else
            break;
    }
    if (words - next < 2 || word[next][0] == '-') {
        fputs("usage: bridge [--record PREFIX] [--window FILE] [--tag NAME] SOCKET COMMAND...\n", stderr);
        return 2;
    }
    for (unsigned i = 0; i < QUEUES; i++)
        queues[i].kick = queues[i].call = -1;
    catch_signals();
    device.stream_record = record(prefix, "stream");
    device.answers_record = record(prefix, "answers");
    int listening = listen_at(word[next]);
    start_device(word + next + 1, window.pages);

    struct pollfd files[2] = {{0}, {listening, POLLIN, 0}};
    if (wait_for(files, 2)) {
        int front_end = accept4(listening, NULL, NULL, SOCK_CLOEXEC);
        if (front_end < 0)
            fail("no front end: %s", strerror(errno));
        serve_all(front_end);
    }
    if (in_session)
        destroy();
    return end_device();
}
