/* The file that keeps the image. It is exactly the image.
 *
 * A change is written whole to a new file beside it, forced to the disk, and renamed over the old one; then the folder
 * is forced out too. A cut at any moment leaves the old image or the new one. While a store is open its folder is
 * locked, so that of several programs at one image each sees what the others did.
 *
 * The new file has the image's name and `.line-new` behind it. No image may have a name with that ending, so nothing
 * else is of that name but what a cut has left; it is taken for that, and removed, only where it is a plain file with
 * one link and no longer than an image, and belongs to us or to the image's owner. Anything else of that name stays,
 * and the change is refused.
 *
 * The new file gets the old one's mode, owner and group before a byte is written to it, or the change is refused.
 * Access lists and extended attributes are not carried over. An image with more than one link is not changed, for the
 * other names would keep the old one. */
#ifndef HOST_STORE_H
#define HOST_STORE_H

#include <stddef.h>
#include <stdint.h>
#include <sys/stat.h>

#include "khlongsit.h"

enum { STORE_NAME = 256 }; /* a file's name with its zero byte, at most */

struct store {
    const char *path;      /* as the user wrote it */
    int folder;            /* its folder, open and locked */
    char name[STORE_NAME]; /* the file's name in the folder */
    char next[STORE_NAME]; /* the new file's */
    struct stat about;     /* the file's mode, owner and number of links; of an image that is to be made, 0 links */
    uint8_t image[KHL_IMAGE_MOST];
    size_t length;
};

/* Each of these gives DONE, or complains and gives FAILED; nothing is changed then. */

/* That an image may have this name. */
int store_may_have(const char *path);

/* Locks the folder for a new image; no file may have its name yet. */
int store_begin(struct store *store, const char *path);

/* Locks the folder and reads the image, which has to be legal. */
int store_open(struct store *store, const char *path);

/* Keeps an image. CHANGED where it is in place, but a cut may undo that. */
int store_keep(const struct store *store, const uint8_t *image, size_t length);

/* Wipes the image from memory and unlocks the folder. */
void store_close(struct store *store);

/* The end of a command: keeps the image that the card made, if it made one (else null), or says that it refused; closes
 * the store. Gives what keeping gave. */
int store_end(struct store *store, const char *whom, uint32_t answer, const uint8_t *image, size_t length);

#endif
