/* load: what a guest does with a mounted directory, each byte of it beside a plain array.
 *
 *     load FOLDER ROUNDS
 *
 * It makes at most 16 files in FOLDER, which is to be empty. Each part prints a line `NAME: N checks, M wrong`, and before it
 * a line `WRONG NAME: ..` for each of its first wrong checks. The calls of the last part, `call NAME: ERROR`, are no checks: they
 * show what a file system that lacks them answers. The status is 0 where nothing was wrong, else 1.
 */
#define _GNU_SOURCE
#include <dirent.h>
#include <errno.h>
#include <fcntl.h>
#include <stdarg.h>
#include <stdbool.h>
#include <stdint.h>
#include <stdio.h>
#include <stdlib.h>
#include <string.h>
#include <sys/file.h>
#include <sys/mman.h>
#include <sys/stat.h>
#include <sys/statfs.h>
#include <sys/syscall.h>
#include <sys/wait.h>
#include <sys/xattr.h>
#include <unistd.h>

enum { PAGE = 4096, CHUNK = 2 << 20, MIB = 1 << 20, PROCESSES = 4 };

/* ---- Checks ---- */

static const char *part;
static unsigned long checks, wrong;

static void check(bool right, const char *form, ...) __attribute__((format(printf, 2, 3)));
static void check(bool right, const char *form, ...)
{
    int error = errno;
    checks++;
    if (right || wrong++ >= 5)
        return;
    va_list words;
    va_start(words, form);
    printf("WRONG %s: ", part);
    vprintf(form, words);
    printf(" (errno %s)\n", error ? strerrorname_np(error) : "0");
    va_end(words);
    fflush(stdout);
}

static unsigned long all_wrong;

static void begin(const char *name)
{
    part = name;
    checks = wrong = 0;
}

static void end(void)
{
    printf("%s: %lu checks, %lu wrong\n", part, checks, wrong);
    fflush(stdout);
    all_wrong += wrong;
}

/* Runs `play` in several processes at once, and adds up what they checked. */
static void in_processes(void (*play)(int process))
{
    int results[2];
    unsigned long result[2];
    if (pipe(results))
        exit(2);
    for (int i = 0; i < PROCESSES; i++)
        if (fork() == 0) {
            checks = wrong = 0;
            play(i);
            result[0] = checks, result[1] = wrong;
            _exit(write(results[1], result, sizeof result) != sizeof result);
        }
    close(results[1]);
    int whole = 0;
    for (; read(results[0], result, sizeof result) == sizeof result; whole++)
        checks += result[0], wrong += result[1];
    close(results[0]);
    while (wait(NULL) > 0)
        ;
    check(whole == PROCESSES, "only %d of %d processes came to their end", whole, PROCESSES);
}

/* ---- Chance, the same in each run ---- */

static uint64_t chance = 88172645463325252ull;

static uint32_t below(uint32_t bound)
{
    chance ^= chance << 13;
    chance ^= chance >> 7;
    chance ^= chance << 17;
    return (uint32_t)(chance >> 11) % bound;
}

static void fill(uint8_t *bytes, size_t length)
{
    for (size_t i = 0; i < length; i++)
        bytes[i] = (uint8_t)below(256);
}

/* Writes back what is dirty, and forgets what the guest has in its caches. */
static void drop_caches(void)
{
    sync();
    int file = open("/proc/sys/vm/drop_caches", O_WRONLY);
    if (file >= 0 && write(file, "3", 1) == 1)
        usleep(20000);
    close(file);
}

/* ---- A file beside an array ---- */

struct twin {
    const char *name;
    int file, direct;        /* the file, and the same one opened past the guest's caches */
    uint8_t *bytes, *other;  /* what it holds, and room to read into */
    uint32_t size, most;
};

static void reopen(struct twin *twin)
{
    close(twin->file);
    twin->file = open(twin->name, O_RDWR);
    check(twin->file >= 0, "%s isn't opened again", twin->name);
}

static void write_at(struct twin *twin, int file, uint32_t offset, uint32_t length)
{
    fill(twin->other, length);
    ssize_t done = pwrite(file, twin->other, length, offset);
    check(done == (ssize_t)length, "%s: a write of %u bytes at %u gives %zd", twin->name, length, offset, done);
    memcpy(twin->bytes + offset, twin->other, length);
    if (offset + length > twin->size)
        twin->size = offset + length;
}

static void read_at(struct twin *twin, int file, uint32_t offset, uint32_t length)
{
    uint32_t due = offset >= twin->size ? 0 : offset + length > twin->size ? twin->size - offset : length;
    ssize_t done = pread(file, twin->other, length, offset);
    check(done == (ssize_t)due, "%s: a read of %u bytes at %u gives %zd, and %u are due", twin->name, length, offset, done, due);
    for (ssize_t i = 0; i < done; i++)
        if (twin->other[i] != twin->bytes[offset + i]) {
            check(false, "%s: a read at %u finds 0x%02x at %zu, and 0x%02x is due", twin->name, offset, twin->other[i], (size_t)offset + (size_t)i, twin->bytes[offset + i]);
            return;
        }
}

static void truncate_to(struct twin *twin, uint32_t size)
{
    check(ftruncate(twin->file, size) == 0, "%s isn't truncated to %u", twin->name, size);
    if (size < twin->size)
        memset(twin->bytes + size, 0, twin->size - size);
    twin->size = size;
}

static void append(struct twin *twin, uint32_t length)
{
    int file = open(twin->name, O_WRONLY | O_APPEND);
    if (twin->size + length > twin->most)
        length = twin->most - twin->size;
    fill(twin->other, length);
    ssize_t done = write(file, twin->other, length);
    check(done == (ssize_t)length, "%s: an append of %u bytes gives %zd", twin->name, length, done);
    memcpy(twin->bytes + twin->size, twin->other, length);
    twin->size += length;
    close(file);
}

/* Reads or writes through a shared mapping. */
static void through_mapping(struct twin *twin, uint32_t offset, uint32_t length, bool writes)
{
    if (offset >= twin->size)
        return;
    if (length > twin->size - offset)
        length = twin->size - offset;
    uint32_t start = offset / PAGE * PAGE;
    uint8_t *map = mmap(NULL, offset + length - start, PROT_READ | PROT_WRITE, MAP_SHARED, twin->file, start);
    check(map != MAP_FAILED, "%s isn't mapped", twin->name);
    if (map == MAP_FAILED)
        return;
    if (writes) {
        fill(twin->bytes + offset, length);
        memcpy(map + (offset - start), twin->bytes + offset, length);
        if (below(2))
            check(msync(map, offset + length - start, MS_SYNC) == 0, "%s: msync fails", twin->name);
    } else {
        check(memcmp(map + (offset - start), twin->bytes + offset, length) == 0, "%s: a mapping of %u bytes at %u has other bytes", twin->name, length, offset);
    }
    munmap(map, offset + length - start);
}

static void check_size(struct twin *twin)
{
    struct stat about;
    int failed = fstat(twin->file, &about);
    check(!failed && about.st_size == twin->size, "%s has the size %lld, and %u is due", twin->name, failed ? -1ll : (long long)about.st_size, twin->size);
}

static void one_call(struct twin *twin, uint32_t most_length)
{
    uint32_t offset = below(twin->most), length = 1 + below(most_length);
    if (length > twin->most - offset)
        length = twin->most - offset;
    uint32_t start = offset / PAGE * PAGE, whole = (length + PAGE - 1) / PAGE * PAGE;
    if (whole > twin->most - start)
        whole = twin->most - start;
    switch (below(16)) {
    case 0: case 1: case 2: write_at(twin, twin->file, offset, length); break;
    case 3: case 4: read_at(twin, twin->file, offset, length); break;
    case 5: truncate_to(twin, offset); break;
    case 6: case 7: append(twin, length); break;
    case 8: case 9: through_mapping(twin, offset, length, true); break;
    case 10: through_mapping(twin, offset, length, false); break;
    case 11: write_at(twin, twin->direct, start, whole); break;
    case 12: read_at(twin, twin->direct, start, whole); break;
    case 13: check(fsync(twin->file) == 0, "%s: fsync fails", twin->name); break;
    case 14: check_size(twin); break;
    case 15: below(4) ? reopen(twin) : drop_caches(); break;
    }
}

static void whole_file(struct twin *twin)
{
    check_size(twin);
    for (uint32_t at = 0; at < twin->size; at += MIB)
        read_at(twin, twin->file, at, MIB);
}

/* Makes calls at random on one file of at most `most` bytes, a multiple of the page. */
static void random_calls(const char *name, int rounds, uint32_t most, uint32_t most_length)
{
    struct twin twin = {.name = name, .most = most, .bytes = calloc(1, most)};
    if (!twin.bytes || posix_memalign((void **)&twin.other, PAGE, most_length + MIB))
        exit(2);
    twin.file = open(name, O_CREAT | O_RDWR | O_TRUNC, 0644);
    twin.direct = open(name, O_RDWR | O_DIRECT);
    check(twin.file >= 0 && twin.direct >= 0, "%s isn't made", name);
    for (int i = 0; i < rounds && wrong < 5; i++)
        one_call(&twin, most_length);
    whole_file(&twin);
    drop_caches();
    reopen(&twin);
    whole_file(&twin);
    close(twin.file);
    close(twin.direct);
    free(twin.bytes);
    free(twin.other);
}

/* ---- The parts ---- */

static int rounds;

static void own_file(int process)
{
    char name[16];
    snprintf(name, sizeof name, "own%d", process);
    chance += 7919 * (uint64_t)(process + 1);
    random_calls(name, rounds / 2, 256 << 10, 20000);
}

enum { STRIPE = 1000, STRIPES = 400 };

static void check_stripe(const uint8_t *bytes, int stripe, uint8_t due, const char *way)
{
    for (int i = 0; i < STRIPE; i++)
        if (bytes[i] != due) {
            check(false, "stripe %d has 0x%02x at %d by %s, and 0x%02x is due", stripe, bytes[i], i, way, due);
            return;
        }
    checks++;
}

/* Each process has each fourth stripe of one file, so that several of them meet in a page. */
static void stripes(int process)
{
    uint8_t due[STRIPES] = {0}, bytes[STRIPE];
    int file = open("stripes", O_RDWR);
    uint8_t *map = mmap(NULL, STRIPES * STRIPE, PROT_READ | PROT_WRITE, MAP_SHARED, file, 0);
    check(map != MAP_FAILED, "the file of stripes isn't mapped");
    chance += 104729 * (uint64_t)(process + 1);
    for (int i = 0; i < rounds && map != MAP_FAILED; i++) {
        int stripe = process + PROCESSES * (int)below(STRIPES / PROCESSES);
        off_t at = stripe * STRIPE;
        switch (below(4)) {
        case 0:
            memset(bytes, due[stripe] = (uint8_t)below(256), STRIPE);
            check(pwrite(file, bytes, STRIPE, at) == STRIPE, "stripe %d isn't written", stripe);
            break;
        case 1: memset(map + at, due[stripe] = (uint8_t)below(256), STRIPE); break;
        case 2:
            check(pread(file, bytes, STRIPE, at) == STRIPE, "stripe %d isn't read", stripe);
            check_stripe(bytes, stripe, due[stripe], "read");
            break;
        case 3: check_stripe(map + at, stripe, due[stripe], "mapping"); break;
        }
    }
    munmap(map, STRIPES * STRIPE);
    drop_caches();
    for (int stripe = process; stripe < STRIPES; stripe += PROCESSES) {
        check(pread(file, bytes, STRIPE, stripe * STRIPE) == STRIPE, "stripe %d isn't read", stripe);
        check_stripe(bytes, stripe, due[stripe], "read at the end");
    }
    close(file);
}

static void all_stripes(void)
{
    int file = open("stripes", O_CREAT | O_RDWR, 0644);
    check(ftruncate(file, STRIPES * STRIPE) == 0, "the file of stripes isn't made");
    close(file);
    in_processes(stripes);
}

/* Lines that name their process and their number: the file is to have each line whole, and each process's in order. */
static void append_lines(int process)
{
    int file = open("lines", O_WRONLY | O_APPEND);
    for (int i = 0; i < rounds / 2; i++) {
        char line[64];
        int length = snprintf(line, sizeof line, "%d %d line\n", process, i);
        check(write(file, line, (size_t)length) == length, "line %d of process %d isn't appended", i, process);
    }
    close(file);
}

static void all_lines(void)
{
    int next[PROCESSES] = {0}, process, number, count = 0;
    char word[8];
    close(open("lines", O_CREAT | O_RDWR, 0644));
    in_processes(append_lines);
    drop_caches();
    FILE *file = fopen("lines", "r");
    for (; file && fscanf(file, "%d %d %7s", &process, &number, word) == 3; count++) {
        bool fits = process >= 0 && process < PROCESSES && number == next[process] && strcmp(word, "line") == 0;
        check(fits, "after %d lines comes line %d of process %d", count, number, process);
        if (!fits)
            break;
        next[process]++;
    }
    check(count == PROCESSES * (rounds / 2), "%d lines of %d are there", count, PROCESSES * (rounds / 2));
    if (file)
        fclose(file);
}

/* Reads the directory, and checks that a name is there exactly once or not at all. */
static void check_name(const char *name, int due)
{
    int found = 0;
    DIR *folder = opendir(".");
    for (struct dirent *it; folder && (it = readdir(folder));)
        found += strcmp(it->d_name, name) == 0;
    if (folder)
        closedir(folder);
    check(folder && found == due, "a name is there %d times, and %d is due: %.40s", found, due, name);
}

static void names(void)
{
    char long_name[256];
    memset(long_name, 'n', 255);
    long_name[255] = 0;
    const char *made[] = {long_name, "bytes \xff\xc3\xa4 above 127", "third"};
    for (int i = 0; i < 3; i++) {
        int file = open(made[i], O_CREAT | O_EXCL | O_RDWR, 0644);
        check(file >= 0, "%.40s isn't made", made[i]);
        check(write(file, made[i], 5) == 5, "%.40s isn't written", made[i]);
        close(file);
        check(open(made[i], O_CREAT | O_EXCL | O_RDWR, 0644) < 0 && errno == EEXIST, "%.40s is made twice", made[i]);
        check_name(made[i], 1);
    }
    drop_caches();
    for (int i = 0; i < 3; i++) {
        check_name(made[i], 1);
        check(unlink(made[i]) == 0, "%.40s isn't unlinked", made[i]);
        check_name(made[i], 0);
        check(open(made[i], O_RDONLY) < 0 && errno == ENOENT, "%.40s is opened after unlink", made[i]);
        check(unlink(made[i]) < 0 && errno == ENOENT, "%.40s is unlinked twice", made[i]);
    }
    check(open("absent", O_RDONLY) < 0 && errno == ENOENT, "a file is there that nobody made");
}

/* A file without a name lives as long as it is open. */
static void unlinked(void)
{
    struct stat about;
    struct twin twin = {.name = "unlinked", .most = 1 << 17, .bytes = calloc(1, 1 << 17), .other = malloc(MIB)};
    if (!twin.bytes || !twin.other)
        exit(2);
    twin.file = open(twin.name, O_CREAT | O_EXCL | O_RDWR, 0644);
    write_at(&twin, twin.file, 10, 50000);
    check(unlink(twin.name) == 0, "it isn't unlinked");
    check_name(twin.name, 0);
    check(fstat(twin.file, &about) == 0 && about.st_nlink == 0, "it has links");
    write_at(&twin, twin.file, 70000, 9000);
    truncate_to(&twin, 75000);
    through_mapping(&twin, 4000, 9000, true);
    drop_caches();
    whole_file(&twin);
    check(close(twin.file) == 0, "it isn't closed");
}

static void big(void)
{
    int count = rounds < 200 ? 1 + rounds / 10 : 20;
    uint8_t *bytes = malloc(MIB), *other = malloc(MIB);
    if (!bytes || !other)
        exit(2);
    int file = open("big", O_CREAT | O_RDWR | O_TRUNC, 0644);
    for (int i = 0; i < count; i++) {
        memset(bytes, i, MIB);
        for (int k = 0; k < MIB; k += 509)
            bytes[k] = (uint8_t)(k >> 9);
        check(pwrite(file, bytes, MIB, (off_t)i * MIB) == MIB, "MiB %d isn't written", i);
    }
    check(fsync(file) == 0, "fsync fails");
    drop_caches();
    for (int i = 0; i < count; i++) {
        memset(bytes, i, MIB);
        for (int k = 0; k < MIB; k += 509)
            bytes[k] = (uint8_t)(k >> 9);
        check(pread(file, other, MIB, (off_t)i * MIB) == MIB, "MiB %d isn't read", i);
        check(memcmp(bytes, other, MIB) == 0, "MiB %d has other bytes", i);
    }
    close(file);
    free(bytes);
    free(other);
}

/* ---- Calls that a small file system may lack ---- */

static void call(const char *name, long result)
{
    printf("call %s: %s\n", name, result < 0 ? strerrorname_np(errno) : "done");
    fflush(stdout);
}

/* Each is on a file of its own, so that what one changes shows in no other. */
static void calls_on_names(void)
{
    call("mkdir", mkdir("folder", 0755));
    call("mknod of a pipe", mknod("pipe", S_IFIFO | 0600, 0));
    call("symlink", symlink("big", "symlink"));
    call("link", link("lines", "link"));
    call("rename", rename("own0", "renamed"));
    call("rename that replaces nothing", syscall(SYS_renameat2, AT_FDCWD, "own1", AT_FDCWD, "replaced", 1));
    call("open of a file without name", open(".", O_TMPFILE | O_RDWR, 0600));
    call("statfs", statfs(".", &(struct statfs){0}));
    int folder = open(".", O_RDONLY | O_DIRECTORY);
    call("fsync of the folder", fsync(folder));
    close(folder);
}

static void calls_on_attributes(void)
{
    struct stat about = {0};
    call("chmod", chmod("own2", 0700));
    call("access to run it", access("own2", X_OK));
    call("chown", chown("own2", 7, 8));
    call("times", utimensat(AT_FDCWD, "own2", (struct timespec[]){{1000000000, 5}, {1000000001, 6}}, 0));
    stat("own2", &about);
    printf("call stat: mode %o, owner %u %u, changed at %lld\n", about.st_mode, about.st_uid, about.st_gid, (long long)about.st_mtime);
    call("setxattr", setxattr("own2", "user.key", "value", 5, 0));
    call("getxattr", getxattr("own2", "user.key", &about, sizeof about));
    call("listxattr", listxattr("own2", (char *)&about, sizeof about));
}

static void calls_on_files(void)
{
    int random = open("random", O_RDWR), own3 = open("own3", O_RDWR), big = open("big", O_RDWR), stripes = open("stripes", O_RDWR);
    struct flock lock = {.l_type = F_WRLCK, .l_len = 4};
    call("lseek to data", lseek(random, 0, SEEK_DATA));
    call("lock", fcntl(random, F_SETLK, &lock));
    call("flock", flock(random, LOCK_EX | LOCK_NB));
    call("syncfs", syncfs(random));
    call("copy_file_range", syscall(SYS_copy_file_range, stripes, &(loff_t){0}, stripes, &(loff_t){100000}, 100L, 0));
    call("write past 64 MiB", pwrite(big, "x", 1, 64 * MIB));
    call("truncation past 64 MiB", ftruncate(own3, 64 * MIB + 1));
    call("fallocate", fallocate(random, 0, 0, 100000));
    call("fallocate that makes a hole", fallocate(random, FALLOC_FL_KEEP_SIZE | FALLOC_FL_PUNCH_HOLE, 0, PAGE));
    close(random), close(own3), close(big), close(stripes);
}

static void calls_for_files(void)
{
    for (int i = 1; i <= 6; i++) {
        char name[16];
        snprintf(name, sizeof name, "more%d", i);
        int file = open(name, O_CREAT | O_EXCL | O_RDWR, 0644);
        if (file < 0) {
            call("one file more", file);
            return;
        }
        close(file);
        unlink(name);
    }
    call("six files more", 0);
}

int main(int words, char **word)
{
    if (words != 3 || chdir(word[1]) || (rounds = atoi(word[2])) < 1) {
        fputs("usage: load FOLDER ROUNDS\n", stderr);
        return 2;
    }
    begin("random"), random_calls("random", rounds, 5 * MIB, 60000), end();
    begin("processes"), in_processes(own_file), end();
    begin("stripes"), all_stripes(), end();
    begin("lines"), all_lines(), end();
    begin("names"), names(), end();
    begin("unlinked"), unlinked(), end();
    begin("big"), big(), end();
    calls_on_attributes();
    calls_on_files();
    calls_on_names();
    calls_for_files();
    return all_wrong != 0;
}
