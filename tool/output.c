#define _XOPEN_SOURCE 700

#include "output.h"

#include "input.h"

#include <errno.h>
#include <stdlib.h>
#include <string.h>
#include <sys/stat.h>
#include <unistd.h>

void put_hex(FILE *stream, const uint8_t *data, size_t length)
{
    size_t i;

    for (i = 0; i < length; i += 1) {
        fprintf(stream, "%02x%c", (unsigned)data[i], i % 16 == 15 || i + 1 == length ? '\n' : ' ');
    }
}

void put_block(FILE *stream, int hex, const uint8_t *data, size_t length)
{
    if (hex) {
        put_hex(stream, data, length);
    } else {
        fwrite(data, 1, length, stream);
    }
}

int is_stdout(const char *path)
{
    struct stat named;
    struct stat open;

    return strcmp(path, "-") == 0 || (stat(path, &named) == 0 && fstat(STDOUT_FILENO, &open) == 0 &&
                                      named.st_dev == open.st_dev && named.st_ino == open.st_ino);
}

/* Writes and closes: 1 if all went well, also on the disk where there is one. */
static int fill(FILE *stream, int hex, const uint8_t *data, size_t length, int is_file)
{
    int failed;

    put_block(stream, hex, data, length);
    failed = ferror(stream) || fflush(stream) != 0 || (is_file && fsync(fileno(stream)) != 0);
    return fclose(stream) == 0 && !failed;
}

static int cannot_write(const char *path)
{
    return complain("%s: cannot write: %s", path, strerror(errno));
}

static int write_directly(const char *path, int hex, const uint8_t *data, size_t length, int is_file)
{
    FILE *stream = fopen(path, "wb");

    if (stream == NULL) {
        return complain("%s: cannot open for writing: %s", path, strerror(errno));
    }
    return fill(stream, hex, data, length, is_file) ? STATUS_DONE : cannot_write(path);
}

/* A link that leads nowhere gets its file, unless not all of it can be written. */
static int write_behind(const char *path, int hex, const uint8_t *data, size_t length)
{
    int status = write_directly(path, hex, data, length, 1);
    char *made = status == STATUS_DONE ? NULL : realpath(path, NULL);

    if (made != NULL) {
        unlink(made);
    }
    free(made);
    return status;
}

/* The mode of a file that is made anew. */
static mode_t new_mode(void)
{
    mode_t mask = umask(0);

    umask(mask);
    return (S_IRUSR | S_IWUSR | S_IRGRP | S_IWGRP | S_IROTH | S_IWOTH) & ~mask;
}

/*
 * Gives a file the owner and the group of the one that it is to replace, or its group alone, as far as that can be had.
 * Answers that one's mode, without what it lets its group do if another group has the file now.
 */
static mode_t take_owner(int file, const struct stat *replaced)
{
    mode_t mode = replaced->st_mode & (mode_t)(S_IRWXU | S_IRWXG | S_IRWXO);

    if (fchown(file, replaced->st_uid, replaced->st_gid) == 0 || fchown(file, (uid_t)-1, replaced->st_gid) == 0) {
        return mode;
    }
    return mode & ~(mode_t)S_IRWXG;
}

/*
 * A file open for writing with the mode of the one that it is to replace; NULL for none. Its name is put into name, which
 * ends with six X.
 */
static FILE *open_new(char *name, const struct stat *replaced)
{
    int file = mkstemp(name);
    FILE *stream;

    if (file < 0) {
        return NULL;
    }
    stream = fchmod(file, replaced == NULL ? new_mode() : take_owner(file, replaced)) == 0 ? fdopen(file, "wb") : NULL;
    if (stream == NULL) {
        int reason = errno;

        close(file);
        unlink(name);
        errno = reason;
    }
    return stream;
}

/* Where a file is, and what to call it. */
struct target {
    const char *shown;
    const char *place;
    const struct stat *replaced; /* NULL if there is none yet */
};

/* Fills a temporary file and puts it in the target's place. */
static int replace(const struct target *target, char *name, int hex, const uint8_t *data, size_t length)
{
    FILE *stream = open_new(name, target->replaced);
    int status;

    if (stream == NULL) {
        return complain("%s: cannot make a file beside it: %s", target->shown, strerror(errno));
    }
    if (fill(stream, hex, data, length, 1) && rename(name, target->place) == 0) {
        return STATUS_DONE;
    }
    status = cannot_write(target->shown);
    unlink(name);
    return status;
}

static int write_through(const struct target *target, int hex, const uint8_t *data, size_t length)
{
    const char *slash = strrchr(target->place, '/');
    size_t folder = slash == NULL ? 0 : (size_t)(slash - target->place) + 1;
    char *name = (char *)malloc(folder + sizeof ".ngulo.XXXXXX");
    int status;

    if (name == NULL) {
        return complain("%s: out of memory", target->shown);
    }
    memcpy(name, target->place, folder);
    strcpy(name + folder, ".ngulo.XXXXXX");
    status = replace(target, name, hex, data, length);
    free(name);
    return status;
}

int write_block(const char *path, int hex, const uint8_t *data, size_t length)
{
    struct stat held;
    struct target target;
    int exists = stat(path, &held) == 0;
    char *followed;
    int status;

    /* No file can be lost where there is none: a device, a pipe, a link that leads nowhere. */
    if (exists && !S_ISREG(held.st_mode)) {
        return write_directly(path, hex, data, length, 0);
    }
    if (!exists && lstat(path, &held) == 0) {
        return write_behind(path, hex, data, length);
    }
    /* The file that a link leads to is replaced, not the link. */
    followed = exists && access(path, W_OK) == 0 ? realpath(path, NULL) : NULL;
    if (exists && followed == NULL) {
        return complain("%s: cannot open for writing: %s", path, strerror(errno));
    }
    target.shown = path;
    target.place = exists ? followed : path;
    target.replaced = exists ? &held : NULL;
    status = write_through(&target, hex, data, length);
    free(followed);
    return status;
}
