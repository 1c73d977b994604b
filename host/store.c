#define _DEFAULT_SOURCE
#include "store.h"

#include <errno.h>
#include <fcntl.h>
#include <stdio.h>
#include <string.h>
#include <strings.h>
#include <sys/file.h>
#include <unistd.h>

#include "bytes.h"
#include "say.h"

/* what the name of a new file has behind the image's */
#define ENDING ".line-new"

static const char *name_in(const char *path) {
    const char *slash = strrchr(path, '/');
    return slash ? slash + 1 : path;
}

/* small and capital letters are one on some disks */
int store_may_have(const char *path) {
    const char *name = name_in(path);
    size_t length = strlen(name), ending = strlen(ENDING);
    if (length == 0 || strcmp(name, ".") == 0 || strcmp(name, "..") == 0)
        return complain(FAILED, "%s: not the name of a file", path);
    if (length + sizeof ENDING > STORE_NAME)
        return complain(FAILED, "%s: the name is too long", path);
    if (length >= ending && strcasecmp(name + length - ending, ENDING) == 0)
        return complain(FAILED, "%s: no image has a name that ends in %s", path, ENDING);
    return DONE;
}

/* Splits a path into its folder, as an open file, and the names in it. */
static int find_folder(struct store *store, const char *path) {
    char folder[4096] = ".";
    const char *name = name_in(path);
    size_t before = (size_t)(name - path);
    if (store_may_have(path) != DONE)
        return FAILED;
    if (before >= sizeof folder)
        return complain(FAILED, "%s: the name is too long", path);
    if (before > 0)
        memcpy(folder, path, before), folder[before] = '\0';
    strcpy(store->name, name);
    strcat(strcpy(store->next, name), ENDING);
    store->folder = open(folder, O_RDONLY | O_DIRECTORY | O_CLOEXEC);
    return store->folder < 0 ? complain(FAILED, "cannot open the folder %s: %s", folder, strerror(errno)) : DONE;
}

static int lock(struct store *store, const char *path) {
    store->path = path;
    store->length = 0;
    if (find_folder(store, path) != DONE)
        return FAILED;
    if (flock(store->folder, LOCK_EX) == 0)
        return DONE;
    complain(FAILED, "cannot lock the folder of %s: %s", path, strerror(errno));
    store_close(store);
    return FAILED;
}

/* ---- reading */

/* Reads up to `most` bytes; a shorter count is the end of the file, -1 an error. */
static ssize_t read_up_to(int file, uint8_t *bytes, size_t most) {
    size_t length = 0;
    while (length < most) {
        ssize_t step = read(file, bytes + length, most - length);
        if (step < 0)
            return -1;
        if (step == 0)
            break;
        length += (size_t)step;
    }
    return (ssize_t)length;
}

/* Reads the file; one byte more than an image may have is read as well, and refused. */
static int read_image(struct store *store) {
    uint8_t more;
    /* without waiting, for the name may be a pipe's */
    int file = openat(store->folder, store->name, O_RDONLY | O_NOFOLLOW | O_NONBLOCK | O_CLOEXEC);
    if (file < 0 && errno == ELOOP)
        return complain(FAILED, "%s is a symbolic link: name the file itself", store->path);
    if (file < 0)
        return complain(FAILED, "cannot open %s: %s", store->path, strerror(errno));
    int plain = fstat(file, &store->about) == 0 && S_ISREG(store->about.st_mode);
    ssize_t length = plain ? read_up_to(file, store->image, sizeof store->image) : 0;
    ssize_t over = length == KHL_IMAGE_MOST ? read_up_to(file, &more, 1) : 0;
    int error = errno;
    close(file);
    if (!plain)
        return complain(FAILED, "%s is not a plain file", store->path);
    if (length < 0 || over < 0)
        return complain(FAILED, "cannot read %s: %s", store->path, strerror(error));
    if (over > 0)
        return complain(FAILED, "%s is not a legal image: it is longer than %d bytes", store->path, KHL_IMAGE_MOST);
    store->length = (size_t)length;
    return DONE;
}

/* Nobody has the empty identity: asked for it, the card says 3 of a legal image and 13 of any other. */
static int is_legal(const uint8_t *image, size_t length) {
    uint8_t reply[KHL_ROOM], report[KHL_REPORT];
    uint32_t answer = khl_ask(image, length, (const uint8_t *)"", 0, reply, sizeof reply, report);
    wipe_stack();
    return answer == KHL_NO_PARTNER;
}

int store_open(struct store *store, const char *path) {
    if (lock(store, path) != DONE)
        return FAILED;
    int status = read_image(store);
    if (status == DONE && !is_legal(store->image, store->length))
        status = complain(FAILED, "%s is not a legal image (%zu bytes)", path, store->length);
    if (status != DONE)
        store_close(store);
    return status;
}

/* That no file has the name yet. */
static int is_free(const struct store *store) {
    struct stat about;
    if (fstatat(store->folder, store->name, &about, AT_SYMLINK_NOFOLLOW) == 0)
        return complain(FAILED, "%s is there already and stays as it is", store->path);
    return errno == ENOENT ? DONE : complain(FAILED, "cannot look for %s: %s", store->path, strerror(errno));
}

int store_begin(struct store *store, const char *path) {
    if (lock(store, path) != DONE)
        return FAILED;
    memset(&store->about, 0, sizeof store->about);
    store->about.st_mode = S_IFREG | 0600;
    store->about.st_uid = geteuid();
    int status = is_free(store);
    if (status != DONE)
        store_close(store);
    return status;
}

/* ---- writing */

/* Removes what a cut has left of an earlier change, and nothing else. */
static int clear_way(const struct store *store) {
    struct stat left;
    if (fstatat(store->folder, store->next, &left, AT_SYMLINK_NOFOLLOW) != 0) {
        if (errno == ENOENT)
            return DONE;
        return complain(FAILED, "cannot look for %s%s: %s; nothing is changed", store->path, ENDING, strerror(errno));
    }
    int ours = S_ISREG(left.st_mode) && left.st_nlink == 1 && left.st_size <= KHL_IMAGE_MOST &&
               (left.st_uid == geteuid() || left.st_uid == store->about.st_uid);
    if (!ours)
        return complain(FAILED, "%s%s is in the way and no file of ours; nothing is changed", store->path, ENDING);
    if (unlinkat(store->folder, store->next, 0) != 0)
        return complain(FAILED, "cannot remove %s%s: %s; nothing is changed", store->path, ENDING, strerror(errno));
    return DONE;
}

/* Gives a file the owner, group and mode of the image, if there is one yet. The mode comes last, so that nobody ever
 * has more rights than at the image. */
static int carry_over(int file, const struct stat *image) {
    struct stat now;
    if (image->st_nlink == 0)
        return 0;
    if (fchown(file, image->st_uid, image->st_gid) != 0 || fchmod(file, image->st_mode & 07777) != 0 ||
        fstat(file, &now) != 0)
        return -1;
    errno = EPERM;
    return now.st_uid == image->st_uid && now.st_gid == image->st_gid && now.st_mode == image->st_mode ? 0 : -1;
}

/* Writes all of it and forces it to the disk. */
static int write_whole(int file, const uint8_t *bytes, size_t length) {
    while (length > 0) {
        ssize_t step = write(file, bytes, length);
        if (step < 0)
            return -1;
        bytes += step;
        length -= (size_t)step;
    }
    return fsync(file);
}

/* Writes the new file, which was just made. */
static int write_next(const struct store *store, int file, const uint8_t *image, size_t length) {
    if (carry_over(file, &store->about) != 0) {
        int error = errno;
        close(file);
        return complain(FAILED, "cannot set mode and owner of %s%s: %s; nothing is changed", store->path, ENDING,
                        strerror(error));
    }
    int written = write_whole(file, image, length) == 0;
    int error = errno;
    if (close(file) != 0 && written)
        written = 0, error = errno;
    if (written)
        return DONE;
    return complain(FAILED, "cannot write %s%s: %s; nothing is changed", store->path, ENDING, strerror(error));
}

int store_keep(const struct store *store, const uint8_t *image, size_t length) {
    if (store->about.st_nlink > 1)
        return complain(FAILED, "%s has more than one name (hard links); nothing is changed", store->path);
    if (clear_way(store) != DONE)
        return FAILED;
    int file = openat(store->folder, store->next, O_WRONLY | O_CREAT | O_EXCL | O_NOFOLLOW | O_CLOEXEC,
                      store->about.st_mode & 0600);
    if (file < 0)
        return complain(FAILED, "cannot make %s%s: %s; nothing is changed", store->path, ENDING, strerror(errno));
    int status = write_next(store, file, image, length);
    if (status == DONE && renameat(store->folder, store->next, store->folder, store->name) != 0)
        status = complain(FAILED, "cannot replace %s: %s; nothing is changed", store->path, strerror(errno));
    if (status != DONE) {
        unlinkat(store->folder, store->next, 0);
        return status;
    }
    if (fsync(store->folder) != 0)
        return complain(CHANGED, "%s is changed, but a cut may undo that: %s", store->path, strerror(errno));
    return DONE;
}

void store_close(struct store *store) {
    wipe(store->image, sizeof store->image);
    close(store->folder);
}

int store_end(struct store *store, const char *whom, uint32_t answer, const uint8_t *image, size_t length) {
    int status = DONE;
    if (answer != KHL_DONE)
        status = refused(whom, answer);
    else if (image != NULL)
        status = store_keep(store, image, length);
    store_close(store);
    return status;
}
