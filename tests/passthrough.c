/* A file system in user space that passes everything on to a folder: cc -pthread -o passthrough passthrough.c; ./passthrough FOLDER MOUNT [writeback] [cached] [slow] [planted] [corrupt]
 *
 * It speaks the protocol of /dev/fuse (linux/fuse.h) itself, on eight threads, and needs no library. It says `mounted` once it is, and ends where it is
 * unmounted or its standard input ends.
 *
 * writeback: the kernel keeps what is written, and sends it later. cached: it keeps names and attributes for a second.
 * slow: each look-up of a name takes two milliseconds, for which an open holds its number.
 * planted: two files share a block. A write to one of them reads what the other one has, sleeps, writes, and writes back what it has read; so a write to
 * the other one in between is lost.
 * corrupt: the last byte of a read of 33 to 4,096 bytes is another one. The kernel keeps nothing of what is read, so that a read of more brings what is
 * there. */
#define _GNU_SOURCE
#include <dirent.h>
#include <errno.h>
#include <fcntl.h>
#include <linux/fuse.h>
#include <pthread.h>
#include <stdbool.h>
#include <stddef.h>
#include <stdio.h>
#include <stdlib.h>
#include <string.h>
#include <sys/mount.h>
#include <sys/stat.h>
#include <sys/statvfs.h>
#include <sys/uio.h>
#include <unistd.h>

enum { THREADS = 8, MOST_WRITTEN = 1 << 20, ROOM = MOST_WRITTEN + (1 << 16), MOST_SHARED = 4096, LEAST_CORRUPT = 33, MOST_CORRUPT = 4096, NODES = 1 << 16 };

/* A node that the kernel knows, by its number: an O_PATH descriptor. */
struct node {
    int file;
    dev_t device;
    ino_t inode;
    uint64_t known; /* how often the kernel was told of it */
};
static struct node nodes[NODES];
static uint64_t node_count = FUSE_ROOT_ID + 1;
static pthread_mutex_t lock = PTHREAD_MUTEX_INITIALIZER;
static int fuse, folder;
static bool is_writeback, is_cached, is_slow, is_planted, is_corrupt;
static const char *mount_point;

struct request {
    const struct fuse_in_header *head;
    const void *body;
    const char *name; /* behind a body of no bytes */
};

static void reply(const struct request *it, int error, const void *bytes, size_t size)
{
    struct fuse_out_header head = { .len = (uint32_t)(sizeof head + size), .error = error ? -error : 0, .unique = it->head->unique };
    struct iovec parts[] = { { &head, sizeof head }, { (void *)bytes, size } };

    if (writev(fuse, parts, 2) < 0 && errno != ENOENT)
        perror("passthrough: reply");
}

/* What a call gave: its error, or nothing more. */
static void answer(const struct request *it, int result)
{
    reply(it, result < 0 ? errno : 0, NULL, 0);
}

static struct node *node_of(const struct request *it)
{
    return &nodes[it->head->nodeid];
}

/* A path by which the file of a node can be opened, or changed by its name. */
static const char *path_of(int file, char *path)
{
    snprintf(path, 32, "/proc/self/fd/%d", file);
    return path;
}

static struct fuse_attr attributes(const struct stat *it)
{
    return (struct fuse_attr){ .ino = it->st_ino, .size = (uint64_t)it->st_size, .blocks = (uint64_t)it->st_blocks, .mode = it->st_mode,
        .nlink = (uint32_t)it->st_nlink, .uid = it->st_uid, .gid = it->st_gid, .blksize = 4096,
        .mtime = (uint64_t)it->st_mtim.tv_sec, .mtimensec = (uint32_t)it->st_mtim.tv_nsec, .ctime = (uint64_t)it->st_ctim.tv_sec,
        .ctimensec = (uint32_t)it->st_ctim.tv_nsec };
}

static void reply_attributes(const struct request *it, int file)
{
    struct stat status;

    if (fstatat(file, "", &status, AT_EMPTY_PATH)) {
        answer(it, -1);
        return;
    }
    struct fuse_attr_out out = { .attr_valid = is_cached, .attr = attributes(&status) };
    reply(it, 0, &out, sizeof out);
}

/* The number of a node, which the kernel knows once more: takes its descriptor. */
static uint64_t know(int file, const struct stat *status)
{
    uint64_t number = 0;

    pthread_mutex_lock(&lock);
    for (uint64_t at = FUSE_ROOT_ID; at < node_count; at++) {
        if (nodes[at].known && nodes[at].inode == status->st_ino && nodes[at].device == status->st_dev)
            number = at;
    }
    for (uint64_t at = FUSE_ROOT_ID + 1; !number && at <= node_count && at < NODES; at++) {
        if (nodes[at].known)
            continue;
        nodes[at] = (struct node){ .file = file, .device = status->st_dev, .inode = status->st_ino };
        node_count = at == node_count ? at + 1 : node_count;
        number = at;
        file = -1;
    }
    if (file >= 0)
        close(file);
    nodes[number].known += number != 0;
    pthread_mutex_unlock(&lock);
    return number;
}

static void forget(uint64_t number, uint64_t times)
{
    pthread_mutex_lock(&lock);
    if (number > FUSE_ROOT_ID && number < NODES && nodes[number].known && !(nodes[number].known -= times))
        close(nodes[number].file);
    pthread_mutex_unlock(&lock);
}

static bool enter(const struct request *it, const char *name, struct fuse_entry_out *out)
{
    struct stat status;
    int file = openat(node_of(it)->file, name, O_PATH | O_NOFOLLOW | O_CLOEXEC);

    if (file < 0 || fstatat(file, "", &status, AT_EMPTY_PATH)) {
        answer(it, -1);
        return false;
    }
    *out = (struct fuse_entry_out){ .nodeid = know(file, &status), .entry_valid = is_cached, .attr_valid = is_cached, .attr = attributes(&status) };
    if (!out->nodeid)
        reply(it, ENFILE, NULL, 0);
    return out->nodeid;
}

static void reply_entry(const struct request *it, const char *name, int result)
{
    struct fuse_entry_out out;

    if (result < 0)
        answer(it, -1);
    else if (enter(it, name, &out))
        reply(it, 0, &out, sizeof out);
}

/* --- Files ------------------------------------------------------------------------------------------------------ */

/* Flags of an open: where the kernel keeps what is written it also reads, and it knows itself where the end is. */
static int flags_of(uint32_t flags)
{
    int kept = (int)flags & ~(O_NOFOLLOW | O_APPEND | O_CREAT | O_EXCL | O_NOCTTY);

    return is_writeback && (kept & O_ACCMODE) == O_WRONLY ? (kept & ~O_ACCMODE) | O_RDWR : kept;
}

/* How the kernel reads what is open. */
static uint32_t open_flags(void)
{
    return is_corrupt ? FOPEN_DIRECT_IO : 0;
}

static void open_file(const struct request *it)
{
    const struct fuse_open_in *in = it->body;
    char path[32];
    int file = open(path_of(node_of(it)->file, path), flags_of(in->flags) | O_CLOEXEC);
    struct fuse_open_out out = { .fh = (uint64_t)file, .open_flags = open_flags() };

    if (file < 0)
        answer(it, -1);
    else
        reply(it, 0, &out, sizeof out);
}

static void create_file(const struct request *it)
{
    const struct fuse_create_in *in = it->body;
    const char *name = (const char *)(in + 1);
    struct {
        struct fuse_entry_out entry;
        struct fuse_open_out open;
    } out = { 0 };
    int file = openat(node_of(it)->file, name, flags_of(in->flags) | (int)(in->flags & O_EXCL) | O_CREAT | O_CLOEXEC, in->mode);

    if (file < 0) {
        answer(it, -1);
    } else if (enter(it, name, &out.entry)) {
        out.open = (struct fuse_open_out){ .fh = (uint64_t)file, .open_flags = open_flags() };
        reply(it, 0, &out, sizeof out);
    }
}

static void read_file(const struct request *it)
{
    const struct fuse_read_in *in = it->body;
    unsigned char *bytes = malloc(in->size);
    ssize_t done = pread((int)in->fh, bytes, in->size, (off_t)in->offset);

    if (is_corrupt && done >= LEAST_CORRUPT && in->size <= MOST_CORRUPT)
        bytes[done - 1] ^= 1;
    if (done < 0)
        answer(it, -1);
    else
        reply(it, 0, bytes, (size_t)done);
    free(bytes);
}

/* Another file in the block of a node: the one whose number differs in the last bit. */
static int other_file(uint64_t number)
{
    const struct node *it = &nodes[number ^ 1];
    char path[32];
    struct stat status;

    if (number <= FUSE_ROOT_ID || !it->known || fstatat(it->file, "", &status, AT_EMPTY_PATH) || !S_ISREG(status.st_mode))
        return -1;
    return open(path_of(it->file, path), O_RDWR | O_CLOEXEC);
}

static ssize_t write_shared(uint64_t number, int file, const void *bytes, size_t size, off_t offset)
{
    char shared[MOST_SHARED];
    int other = other_file(number);
    ssize_t kept = other < 0 ? 0 : pread(other, shared, sizeof shared, 0);

    usleep(10000);
    ssize_t done = pwrite(file, bytes, size, offset);
    if (kept > 0 && pwrite(other, shared, (size_t)kept, 0) < 0)
        perror("passthrough: write back");
    if (other >= 0)
        close(other);
    return done;
}

static void write_file(const struct request *it)
{
    const struct fuse_write_in *in = it->body;
    const char *bytes = (const char *)(in + 1);
    ssize_t done = is_planted ? write_shared(it->head->nodeid, (int)in->fh, bytes, in->size, (off_t)in->offset)
                              : pwrite((int)in->fh, bytes, in->size, (off_t)in->offset);
    struct fuse_write_out out = { .size = (uint32_t)done };

    if (done < 0)
        answer(it, -1);
    else
        reply(it, 0, &out, sizeof out);
}

static void set_attributes(const struct request *it)
{
    const struct fuse_setattr_in *in = it->body;
    char path[32];
    int result = 0;

    path_of(node_of(it)->file, path);
    if (in->valid & FATTR_SIZE)
        result = in->valid & FATTR_FH ? ftruncate((int)in->fh, (off_t)in->size) : truncate(path, (off_t)in->size);
    if (!result && in->valid & FATTR_MODE)
        result = chmod(path, in->mode & 07777);
    if (!result && in->valid & (FATTR_UID | FATTR_GID))
        result = chown(path, in->valid & FATTR_UID ? in->uid : (uid_t)-1, in->valid & FATTR_GID ? in->gid : (gid_t)-1);
    if (result)
        answer(it, -1);
    else
        reply_attributes(it, node_of(it)->file);
}

static void allocate(const struct request *it)
{
    const struct fuse_fallocate_in *in = it->body;

    answer(it, fallocate((int)in->fh, (int)in->mode, (off_t)in->offset, (off_t)in->length));
}

/* --- Names ------------------------------------------------------------------------------------------------------ */

static void rename_name(const struct request *it, uint64_t folder_number, const char *names, unsigned flags)
{
    answer(it, renameat2(node_of(it)->file, names, nodes[folder_number].file, names + strlen(names) + 1, flags));
}

static void link_name(const struct request *it)
{
    const struct fuse_link_in *in = it->body;
    const char *name = (const char *)(in + 1);
    char path[32];

    reply_entry(it, name, linkat(AT_FDCWD, path_of(nodes[in->oldnodeid].file, path), node_of(it)->file, name, AT_SYMLINK_FOLLOW));
}

static void open_folder(const struct request *it)
{
    int file = openat(node_of(it)->file, ".", O_RDONLY | O_DIRECTORY | O_CLOEXEC);
    DIR *opened = file < 0 ? NULL : fdopendir(file);
    struct fuse_open_out out = { .fh = (uint64_t)(uintptr_t)opened };

    if (!opened)
        answer(it, -1);
    else
        reply(it, 0, &out, sizeof out);
}

static void read_folder(const struct request *it)
{
    const struct fuse_read_in *in = it->body;
    DIR *opened = (DIR *)(uintptr_t)in->fh;
    char *bytes = calloc(1, in->size);
    size_t used = 0;
    const struct dirent *entry;

    if (telldir(opened) != (long)in->offset)
        seekdir(opened, (long)in->offset);
    while ((entry = readdir(opened))) {
        size_t length = strlen(entry->d_name), size = FUSE_DIRENT_ALIGN(offsetof(struct fuse_dirent, name) + length);
        if (used + size > in->size)
            break;
        struct fuse_dirent head = { .ino = entry->d_ino, .off = (uint64_t)telldir(opened), .namelen = (uint32_t)length, .type = entry->d_type };
        memcpy(bytes + used, &head, offsetof(struct fuse_dirent, name));
        memcpy(bytes + used + offsetof(struct fuse_dirent, name), entry->d_name, length);
        used += size;
    }
    reply(it, 0, bytes, used);
    free(bytes);
}

/* --- The whole --------------------------------------------------------------------------------------------------- */

static void begin(const struct request *it)
{
    const struct fuse_init_in *in = it->body;
    uint32_t flags = FUSE_ASYNC_READ | FUSE_BIG_WRITES | FUSE_PARALLEL_DIROPS | FUSE_MAX_PAGES | (is_writeback ? FUSE_WRITEBACK_CACHE : 0);
    struct fuse_init_out out = { .major = 7, .minor = 31, .max_readahead = in->max_readahead, .flags = in->flags & flags, .max_background = 64,
        .congestion_threshold = 48, .max_write = MOST_WRITTEN, .time_gran = 1, .max_pages = MOST_WRITTEN / 4096 };

    reply(it, 0, &out, sizeof out);
}

static void tell_space(const struct request *it)
{
    struct statvfs space;
    struct fuse_statfs_out out = { 0 };

    fstatvfs(folder, &space);
    out.st = (struct fuse_kstatfs){ .blocks = space.f_blocks, .bfree = space.f_bfree, .bavail = space.f_bavail, .files = space.f_files,
        .ffree = space.f_ffree, .bsize = (uint32_t)space.f_bsize, .namelen = 255, .frsize = (uint32_t)space.f_frsize };
    reply(it, 0, &out, sizeof out);
}

static void forget_many(const struct request *it)
{
    const struct fuse_batch_forget_in *in = it->body;
    const struct fuse_forget_one *each = (const void *)(in + 1);

    for (uint32_t at = 0; at < in->count; at++)
        forget(each[at].nodeid, each[at].nlookup);
}

/* Requests on names. */
static bool serve_names(const struct request *it)
{
    const struct fuse_mkdir_in *made = it->body;
    const struct fuse_mknod_in *node = it->body;
    const struct fuse_rename_in *renamed = it->body;
    const struct fuse_rename2_in *exchanged = it->body;

    switch (it->head->opcode) {
    case FUSE_LOOKUP:
        if (is_slow)
            usleep(2000);
        reply_entry(it, it->name, 0);
        return true;
    case FUSE_MKDIR:
        reply_entry(it, (const char *)(made + 1), mkdirat(node_of(it)->file, (const char *)(made + 1), made->mode));
        return true;
    case FUSE_MKNOD:
        reply_entry(it, (const char *)(node + 1), mknodat(node_of(it)->file, (const char *)(node + 1), node->mode, node->rdev));
        return true;
    case FUSE_UNLINK:
        answer(it, unlinkat(node_of(it)->file, it->name, 0));
        return true;
    case FUSE_RMDIR:
        answer(it, unlinkat(node_of(it)->file, it->name, AT_REMOVEDIR));
        return true;
    case FUSE_RENAME:
        rename_name(it, renamed->newdir, (const char *)(renamed + 1), 0);
        return true;
    case FUSE_RENAME2:
        rename_name(it, exchanged->newdir, (const char *)(exchanged + 1), exchanged->flags);
        return true;
    case FUSE_LINK:
        link_name(it);
        return true;
    default:
        return false;
    }
}

/* Requests on what is open. */
static bool serve_files(const struct request *it)
{
    const struct fuse_release_in *released = it->body;
    const struct fuse_fsync_in *synced = it->body;

    switch (it->head->opcode) {
    case FUSE_OPEN:
        open_file(it);
        return true;
    case FUSE_CREATE:
        create_file(it);
        return true;
    case FUSE_READ:
        read_file(it);
        return true;
    case FUSE_WRITE:
        write_file(it);
        return true;
    case FUSE_FALLOCATE:
        allocate(it);
        return true;
    case FUSE_FSYNC:
        answer(it, fsync((int)synced->fh));
        return true;
    case FUSE_RELEASE:
        answer(it, close((int)released->fh));
        return true;
    case FUSE_OPENDIR:
        open_folder(it);
        return true;
    case FUSE_READDIR:
        read_folder(it);
        return true;
    case FUSE_FSYNCDIR:
        answer(it, fsync(dirfd((DIR *)(uintptr_t)synced->fh)));
        return true;
    case FUSE_RELEASEDIR:
        answer(it, closedir((DIR *)(uintptr_t)released->fh));
        return true;
    default:
        return false;
    }
}

static void serve(const struct request *it)
{
    const struct fuse_forget_in *forgotten = it->body;

    switch (it->head->opcode) {
    case FUSE_INIT:
        begin(it);
        return;
    case FUSE_FORGET:
        forget(it->head->nodeid, forgotten->nlookup);
        return;
    case FUSE_BATCH_FORGET:
        forget_many(it);
        return;
    case FUSE_INTERRUPT:
        return;
    case FUSE_GETATTR:
        reply_attributes(it, node_of(it)->file);
        return;
    case FUSE_SETATTR:
        set_attributes(it);
        return;
    case FUSE_STATFS:
        tell_space(it);
        return;
    case FUSE_FLUSH:
        reply(it, 0, NULL, 0);
        return;
    }
    if (!serve_names(it) && !serve_files(it))
        reply(it, ENOSYS, NULL, 0);
}

static void *serve_all(void *nothing)
{
    char *room = malloc(ROOM);
    ssize_t size;

    while ((size = read(fuse, room, ROOM)) > 0 || errno == EINTR || errno == ENOENT) {
        struct request it = { (const void *)room, room + sizeof(struct fuse_in_header), room + sizeof(struct fuse_in_header) };
        if (size > 0)
            serve(&it);
    }
    free(room);
    return nothing;
}

/* Once nobody holds its standard input any more it takes the file system away, and ends. */
static void *wait_for_end(void *nothing)
{
    char byte;

    while (read(STDIN_FILENO, &byte, 1) > 0)
        ;
    umount2(mount_point, MNT_DETACH);
    _exit(0);
    return nothing;
}

static bool mount_it(void)
{
    char words[128];

    fuse = open("/dev/fuse", O_RDWR | O_CLOEXEC);
    snprintf(words, sizeof words, "fd=%d,rootmode=40000,user_id=%u,group_id=%u,allow_other,default_permissions", fuse, getuid(), getgid());
    return fuse >= 0 && !mount("passthrough", mount_point, "fuse.passthrough", MS_NOSUID | MS_NODEV, words);
}

int main(int count, char **words)
{
    pthread_t threads[THREADS + 1];
    struct stat status;

    for (int at = 3; at < count; at++) {
        is_writeback |= !strcmp(words[at], "writeback");
        is_cached |= !strcmp(words[at], "cached");
        is_slow |= !strcmp(words[at], "slow");
        is_planted |= !strcmp(words[at], "planted");
        is_corrupt |= !strcmp(words[at], "corrupt");
    }
    folder = count < 3 ? -1 : open(words[1], O_RDONLY | O_DIRECTORY | O_CLOEXEC);
    if (folder < 0 || fstat(folder, &status)) {
        fprintf(stderr, "passthrough FOLDER MOUNT [writeback] [cached] [slow] [planted] [corrupt]\n");
        return 2;
    }
    umask(0);
    mount_point = words[2];
    nodes[FUSE_ROOT_ID] = (struct node){ folder, status.st_dev, status.st_ino, 1 };
    if (!mount_it()) {
        perror("passthrough: it cannot be mounted");
        return 77;
    }
    for (int at = 0; at < THREADS; at++)
        pthread_create(&threads[at], NULL, serve_all, NULL);
    pthread_create(&threads[THREADS], NULL, wait_for_end, NULL);
    puts("mounted");
    fflush(stdout);
    for (int at = 0; at < THREADS; at++)
        pthread_join(threads[at], NULL);
    return 0;
}
