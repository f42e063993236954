/* A session that goes on in the next run of a program, since a file keeps it, with its record and its ring. Define
 * _POSIX_C_SOURCE as 200809L before all headers.
 *
 *     lodvarn_options options = LODVARN_OPTIONS;
 *     lodvarn *s = kept_load(path, options);
 *     if (!s && lodvarn_open(&s, &options, "", 0) < 0) return 1;
 *     lodvarn_insert(s, 'c', 1);
 *     if (!kept_save(path, s)) perror(path);
 *
 * A file that is not whole is not loaded, since its checksum is wrong. */
#ifndef KEPT_H
#define KEPT_H

#include "lodvarn.h"
#include <fcntl.h>
#include <stdio.h>
#include <stdlib.h>
#include <sys/stat.h>
#include <unistd.h>

/* Reads a whole file; free frees its bytes. Returns NULL if it can't be read, or there is no memory. */
static inline char *kept_read(const char *path, size_t *len) {
    int file = open(path, O_RDONLY);
    if (file < 0) return NULL;
    off_t size = lseek(file, 0, SEEK_END);
    char *bytes = size < 0 ? NULL : malloc((size_t)size + 1);
    if (bytes && pread(file, bytes, (size_t)size, 0) != size) {
        free(bytes);
        bytes = NULL;
    }
    close(file);
    *len = (size_t)size;
    return bytes;
}

/* Writes a whole file of that mode beside the old one, PATH.new, which then replaces it: so one of the two is whole
 * whenever the process ends. Returns whether it could. */
static inline bool kept_write(const char *path, mode_t mode, const char *bytes, size_t len) {
    char beside[4096];
    if (snprintf(beside, sizeof beside, "%s.new", path) >= (int)sizeof beside) return false;
    int file = open(beside, O_WRONLY | O_CREAT | O_TRUNC, mode);
    if (file < 0) return false;
    bool is_written = write(file, bytes, len) == (ssize_t)len && fsync(file) == 0;
    return close(file) == 0 && is_written && rename(beside, path) == 0;
}

/* Loads the session of a file, and gives it the options. Returns NULL if the file has none, or one whose text is longer
 * than the limit. */
static inline lodvarn *kept_load(const char *path, lodvarn_options options) {
    lodvarn *s = NULL;
    size_t len;
    char *bytes = kept_read(path, &len);
    if (bytes && lodvarn_load(&s, bytes, len) > 0 && lodvarn_set_options(s, &options) < 0) lodvarn_close(&s);
    free(bytes);
    return s;
}

/* Saves a session to a file that only its owner may read, since the ring has what was killed. Returns whether it
 * could. */
static inline bool kept_save(const char *path, lodvarn *s) {
    lodvarn_view bytes;
    return lodvarn_save(s, &bytes) > 0 && kept_write(path, 0600, bytes.at, bytes.len);
}

#endif
