/* Makes the calls on files that a list tells, and nothing else, for bench/disks: what these calls take by themselves.
 * The list is a file of lines: `w AT SIZE PATH` writes so many bytes at a place, `s PATH` syncs a file or a folder,
 * and `u` ends a unit. For each line on standard input the calls of the next unit are made, and the nanoseconds that
 * they took are printed. A file is made at its first call, and stays open. */
#include <fcntl.h>
#include <stdio.h>
#include <stdlib.h>
#include <string.h>
#include <time.h>
#include <unistd.h>

enum { MOST_FILES = 256, MOST_BYTES = 1 << 20, PATH_BYTES = 512 };

struct call {
    char kind;
    long at, size;
    int file;
};

static char paths[MOST_FILES][PATH_BYTES];
static int opened[MOST_FILES];
static int files;
static char bytes[MOST_BYTES];

static void fail(const char *what) {
    perror(what);
    exit(1);
}

/* The number of the file with this path. */
static int file_of(const char *path) {
    for (int file = 0; file < files; file++)
        if (strcmp(paths[file], path) == 0) return file;
    if (files == MOST_FILES) fail("too many files");
    strcpy(paths[files], path);
    opened[files] = -1;
    return files++;
}

/* The descriptor of a file, or of a folder, which is there. */
static int descriptor(int file) {
    if (opened[file] < 0) opened[file] = open(paths[file], O_RDWR | O_CREAT, 0666);
    if (opened[file] < 0) opened[file] = open(paths[file], O_RDONLY);
    if (opened[file] < 0) fail(paths[file]);
    return opened[file];
}

static void make(const struct call *call) {
    int to = descriptor(call->file);
    if (call->kind == 's') {
        if (fsync(to) != 0) fail("fsync");
    } else if (pwrite(to, bytes, call->size, call->at) != call->size) {
        fail("pwrite");
    }
}

/* The calls of a list, with one of kind `e` behind the last. */
static struct call *read_list(const char *path) {
    FILE *list = fopen(path, "r");
    long count = 0, room = 1024;
    struct call *calls = malloc(room * sizeof *calls);
    char kind, name[PATH_BYTES];
    if (list == NULL || calls == NULL) fail(path);
    while (fscanf(list, " %c", &kind) == 1) {
        struct call call = {kind, 0, 0, 0};
        if (kind == 'w' && fscanf(list, "%ld %ld", &call.at, &call.size) != 2) fail("list");
        if (call.size > MOST_BYTES) fail("too many bytes");
        if (kind != 'u' && fscanf(list, " %511[^\n]", name) != 1) fail("list");
        if (kind != 'u') call.file = file_of(name);
        if (count + 2 > room) calls = realloc(calls, (room *= 2) * sizeof *calls);
        if (calls == NULL) fail("list");
        calls[count++] = call;
    }
    calls[count] = (struct call){'e', 0, 0, 0};
    return calls;
}

int main(int argc, char **argv) {
    if (argc != 2) return 1;
    const struct call *next = read_list(argv[1]);
    memset(bytes, 'x', sizeof bytes);
    for (int c = getchar(); c != EOF; c = getchar()) {
        struct timespec begun, ended;
        clock_gettime(CLOCK_MONOTONIC, &begun);
        for (; next->kind == 'w' || next->kind == 's'; next++) make(next);
        clock_gettime(CLOCK_MONOTONIC, &ended);
        if (next->kind == 'u') next++;
        printf("%ld\n", (ended.tv_sec - begun.tv_sec) * 1000000000 + ended.tv_nsec - begun.tv_nsec);
        fflush(stdout);
    }
    return 0;
}
