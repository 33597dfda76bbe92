/* The yardstick of checks/speed.sh: makes puts as a store in a folder does, with all their syncs, and nothing else.
 *
 * Use: puts FOLDER
 * It reads lines from standard input. A line `NAME LENGTH` is a put of so many bytes under this name: the folders that
 * its path lacks are made, and the folder above each is synced; a temporary file is written, synced and renamed, and its
 * folder is synced. An empty line is answered by a line. Status 1 is a call that failed.
 */
#include <errno.h>
#include <fcntl.h>
#include <stdio.h>
#include <stdlib.h>
#include <string.h>
#include <sys/stat.h>
#include <unistd.h>

static void fail(const char *what) {
    perror(what);
    exit(1);
}

static void sync_folder(const char *path) {
    int folder = open(path, O_RDONLY);
    if (folder < 0 || fsync(folder) != 0) fail(path);
    close(folder);
}

/* The folder that a path stands in. */
static void folder_of(char *folder, const char *path) {
    strcpy(folder, path);
    char *slash = strrchr(folder, '/');
    if (slash == NULL) strcpy(folder, ".");
    else *slash = 0;
}

static void make_folders(const char *path) {
    char folder[4096], above[4096];
    for (const char *at = strchr(path + 1, '/'); at != NULL; at = strchr(at + 1, '/')) {
        memcpy(folder, path, at - path);
        folder[at - path] = 0;
        if (mkdir(folder, 0777) == 0) {
            folder_of(above, folder);
            sync_folder(above);
        } else if (errno != EEXIST) {
            fail(folder);
        }
    }
}

static void put(const char *path, const char *bytes, size_t length) {
    char temporary[4096], folder[4096];
    snprintf(temporary, sizeof temporary, "%s.tmp", path);
    int file = open(temporary, O_WRONLY | O_CREAT | O_TRUNC, 0666);
    if (file < 0 && errno == ENOENT) {
        make_folders(path);
        file = open(temporary, O_WRONLY | O_CREAT | O_TRUNC, 0666);
    }
    if (file < 0) fail(temporary);
    while (length > 0) {
        ssize_t written = write(file, bytes, length);
        if (written < 0) fail(temporary);
        bytes += written;
        length -= written;
    }
    if (fsync(file) != 0) fail(temporary);
    close(file);
    if (rename(temporary, path) != 0) fail(path);
    folder_of(folder, path);
    sync_folder(folder);
}

int main(int count, char **words) {
    static char bytes[1 << 24];
    char line[2048], name[1024], path[2048];
    size_t length;
    if (count != 2) return 2;
    memset(bytes, 'x', sizeof bytes);
    while (fgets(line, sizeof line, stdin) != NULL) {
        if (sscanf(line, "%1023s %zu", name, &length) == 2 && length <= sizeof bytes) {
            snprintf(path, sizeof path, "%s/%s", words[1], name);
            put(path, bytes, length);
        } else {
            puts("done");
            fflush(stdout);
        }
    }
    return 0;
}
