/* What two syncs take, which is what a flush of tmem asks of the file system: writes 32 bytes, syncs, writes one byte, and syncs, again
   and again, at the start of a file that has these bytes. Run as SYNCS SECONDS FOLDER; prints OPERATIONS and SECONDS. */
#include "callers.h"
#include <fcntl.h>
#include <unistd.h>

static void put(int file, const char *bytes, size_t count) {
    if (pwrite(file, bytes, count, 0) != (ssize_t)count || fdatasync(file)) fail("syncs: the file refuses");
}

int main(int count, char **words) {
    char path[4096], bytes[32], found[32];
    if (count != 3) fail("%s SECONDS FOLDER", words[0]);
    snprintf(path, sizeof path, "%s/syncs", words[2]);
    int file = open(path, O_RDWR | O_CREAT | O_EXCL, 0600);
    memset(bytes, 0, sizeof bytes);
    put(file, bytes, sizeof bytes);
    if (fsync(file)) fail("syncs: the file refuses");
    long operations = 0;
    double begun = now();
    do {
        memset(bytes, (char)++operations, sizeof bytes);
        put(file, bytes, sizeof bytes);
        put(file, bytes, 1);
    } while (now() - begun < atof(words[1]));
    double seconds = now() - begun;
    if (pread(file, found, sizeof found, 0) != sizeof found || memcmp(bytes, found, sizeof found)) fail("syncs: other bytes are there");
    unlink(path);
    print_figures(operations, seconds);
    return 0;
}
