/*
 * Files that are there whole or not at all. The new content is made beside the file, under another name, and takes its
 * place when all of it is on the disk. A file that has several names (hard links) is then written in place, so that all
 * of them show the new content. What goes to standard output, a device or a pipe is held until it is whole, in memory
 * or, where there is much of it, in a file without a name.
 */
#define _XOPEN_SOURCE 700
#include <errno.h>
#include <fcntl.h>
#include <limits.h>
#include <signal.h>
#include <stdio.h>
#include <stdlib.h>
#include <string.h>
#include <sys/stat.h>
#include <unistd.h>

#include "tool.h"

#define HELD 65536

/* What a signal takes away. */
static char *volatile left_behind;

static void clean_up(int number)
{
    if (left_behind != NULL)
        unlink(left_behind);
    signal(number, SIG_DFL);
    raise(number);
}

static void clean_up_at_exit(void)
{
    if (left_behind != NULL)
        unlink(left_behind);
}

/* Makes the file, and from then on nothing that ends the command leaves it behind. */
static int make_beside(char *name)
{
    static const int numbers[] = {SIGINT, SIGTERM, SIGHUP};
    sigset_t these, before;
    size_t i;
    int file;

    sigemptyset(&these);
    for (i = 0; i < sizeof numbers / sizeof numbers[0]; i++) {
        sigaddset(&these, numbers[i]);
        if (signal(numbers[i], clean_up) == SIG_IGN)
            signal(numbers[i], SIG_IGN);
    }
    atexit(clean_up_at_exit);
    sigprocmask(SIG_BLOCK, &these, &before);
    file = mkstemp(name);
    if (file != -1)
        left_behind = name;
    sigprocmask(SIG_SETMASK, &before, NULL);
    return file;
}

static void sink_trouble(const struct sink *sink)
{
    write_trouble(sink->name != NULL ? sink->name : "standard output");
}

static char *copy_of(const char *text, size_t length, const char *behind)
{
    char *copy = get_memory(length + strlen(behind) + 1);

    memcpy(copy, text, length);
    strcpy(copy + length, behind);
    return copy;
}

/* The length of the folder in front of a name, with its last slash. */
static size_t folder_length(const char *name)
{
    const char *slash = strrchr(name, '/');

    return slash == NULL ? 0 : (size_t)(slash + 1 - name);
}

/* The file that a name leads to. A link may lead to a file that is not there yet. */
static char *behind_links(const char *name)
{
    char *path = copy_of(name, strlen(name), "");
    int links;

    for (links = 0; links < 40; links++) {
        char to[PATH_MAX];
        ssize_t length = readlink(path, to, sizeof to - 1);
        char *next;

        if (length == -1)
            break;
        to[length] = '\0';
        next = to[0] == '/' ? copy_of(to, (size_t)length, "") : copy_of(path, folder_length(path), to);
        free(path);
        path = next;
    }
    return path;
}

/* What the new file may be opened for: as its older copy, or as the mask has it. */
static mode_t mode_of(const struct stat *old, int there)
{
    mode_t mask = umask(0);

    umask(mask);
    return there ? old->st_mode & 0777 : 0666 & ~mask;
}

/* As the shell would: a file that may not be written is not replaced either. */
static void try_to_write(const char *name)
{
    int file = open(name, O_WRONLY);

    if (file == -1)
        write_trouble(name);
    close(file);
}

static void open_beside(struct sink *sink, const struct stat *old, int there)
{
    if (there)
        try_to_write(sink->target);
    sink->in_place = there && old->st_nlink > 1;
    sink->beside = copy_of(sink->target, folder_length(sink->target), ".curlew.XXXXXX");
    sink->file = make_beside(sink->beside);
    if (sink->file == -1 || fchmod(sink->file, mode_of(old, there)) == -1)
        sink_trouble(sink);
}

/* Bytes are no text for a terminal. */
static void no_terminal(const char *name)
{
    int file = name == NULL ? 1 : open(name, O_WRONLY | O_NOCTTY);

    if (file == -1)
        write_trouble(name);
    if (isatty(file)) {
        complain("%s is a terminal, and what comes is bytes and no text", name == NULL ? "standard output" : name);
        advise("Give -o FILE, pipe it on (| od -An -tx1 shows the bytes), or ask for --hex.");
        exit(TROUBLE);
    }
    if (file != 1)
        close(file);
}

void sink_open(struct sink *sink, const char *name)
{
    struct stat old;
    int there;

    memset(sink, 0, sizeof *sink);
    sink->file = -1;
    sink->name = name != NULL && strcmp(name, "-") == 0 ? NULL : name;
    if (sink->name == NULL) {
        no_terminal(NULL);
        return;
    }
    there = stat(sink->name, &old) == 0;
    if (there && !S_ISREG(old.st_mode)) {
        no_terminal(sink->name);
    } else {
        sink->target = behind_links(sink->name);
        open_beside(sink, &old, there);
    }
}

static void write_held(struct sink *sink)
{
    size_t done = 0;

    while (done < sink->held.length) {
        ssize_t more = write(sink->file, sink->held.bytes + done, sink->held.length - done);

        if (more == -1 && errno != EINTR)
            sink_trouble(sink);
        done += more > 0 ? (size_t)more : 0;
    }
    sink->held.length = 0;
}

/* A file without a name, for what standard output gets when it is whole. */
static int nameless_file(struct sink *sink)
{
    const char *folder = getenv("TMPDIR");
    char *name;
    int file;

    folder = folder != NULL && folder[0] != '\0' ? folder : "/tmp";
    name = copy_of(folder, strlen(folder), "/curlew.XXXXXX");
    file = mkstemp(name);
    if (file == -1) {
        sink->name = folder;
        sink_trouble(sink);
    }
    unlink(name);
    free(name);
    return file;
}

void sink_add(struct sink *sink, const void *bytes, size_t length)
{
    text_add(&sink->held, bytes, length);
    if (sink->held.length >= HELD) {
        if (sink->file == -1)
            sink->file = nameless_file(sink);
        write_held(sink);
    }
}

static void copy_to(struct sink *sink, int to, const char *name)
{
    char bytes[HELD];
    off_t at = 0;
    ssize_t length;

    while ((length = pread(sink->file, bytes, sizeof bytes, at)) > 0) {
        write_all(to, name, bytes, (size_t)length);
        at += length;
    }
    if (length == -1)
        write_trouble(name);
}

/* The new content is whole beside the file: should writing fail halfway, it stays there, and is told of. */
static void write_in_place(struct sink *sink)
{
    int file = open(sink->target, O_WRONLY);
    off_t length = lseek(sink->file, 0, SEEK_END);
    char bytes[HELD];
    off_t at = 0;

    if (file == -1)
        sink_trouble(sink);
    left_behind = NULL;
    while (at < length) {
        ssize_t part = pread(sink->file, bytes, sizeof bytes, at);

        if (part <= 0 || write(file, bytes, (size_t)part) != part)
            break;
        at += part;
    }
    if (at < length || ftruncate(file, length) == -1 || fsync(file) == -1 || close(file) == -1) {
        file_complaint(sink->name, NULL);
        advise("It has several names and was being written in place; all of the new content is in %s.", sink->beside);
        exit(TROUBLE);
    }
    unlink(sink->beside);
}

static void hand_over(struct sink *sink)
{
    int file = sink->name == NULL ? 1 : open(sink->name, O_WRONLY);

    if (file == -1)
        write_trouble(sink->name);
    if (sink->file != -1)
        copy_to(sink, file, sink->name == NULL ? "standard output" : sink->name);
    write_all(file, sink->name == NULL ? "standard output" : sink->name, sink->held.bytes, sink->held.length);
    if (file != 1 && close(file) == -1)
        write_trouble(sink->name);
}

static void sink_free(struct sink *sink)
{
    if (sink->file != -1)
        close(sink->file);
    left_behind = NULL;
    free(sink->target);
    free(sink->beside);
    text_free(&sink->held);
}

void sink_keep(struct sink *sink)
{
    if (sink->beside == NULL) {
        hand_over(sink);
    } else {
        write_held(sink);
        if (fsync(sink->file) == -1)
            sink_trouble(sink);
        if (sink->in_place)
            write_in_place(sink);
        else if (rename(sink->beside, sink->target) == -1)
            sink_trouble(sink);
    }
    sink_free(sink);
}

void sink_drop(struct sink *sink)
{
    if (sink->beside != NULL)
        unlink(sink->beside);
    sink_free(sink);
}
