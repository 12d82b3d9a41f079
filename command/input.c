/* Files that are read. */
#define _XOPEN_SOURCE 700
#include <errno.h>
#include <fcntl.h>
#include <stdlib.h>
#include <string.h>
#include <sys/stat.h>
#include <unistd.h>

#include "tool.h"

void file_complaint(const char *name, const char *advice)
{
    complain("%s: %s", name, strerror(errno));
    if (advice != NULL)
        advise("%s", advice);
}

static const char *input_advice(void)
{
    switch (errno) {
    case ENOENT: return "Look at the name; - or no name stands for standard input.";
    case EACCES: return "You may not read this file: ask its owner.";
    case EISDIR: return "Name a file in it.";
    case EBADF: return "It is closed: name a file.";
    default: return NULL;
    }
}

int input_open(struct input *input, const char *name)
{
    input->name = "standard input";
    input->file = 0;
    if (name != NULL && strcmp(name, "-") != 0) {
        input->name = name;
        input->file = open(name, O_RDONLY);
        if (input->file == -1)
            file_complaint(name, input_advice());
    }
    return input->file != -1;
}

int input_read(struct input *input, uint8_t *to, size_t length, size_t *have)
{
    ssize_t more = 1;

    *have = 0;
    while (*have < length && more != 0) {
        more = read(input->file, to + *have, length - *have);
        if (more > 0) {
            *have += (size_t)more;
        } else if (more == -1 && errno != EINTR) {
            file_complaint(input->name, input_advice());
            return 0;
        }
    }
    return 1;
}

int input_some(struct input *input, uint8_t *to, size_t length, size_t unit, size_t *have)
{
    ssize_t more = 1;

    *have = 0;
    while (more != 0 && (*have == 0 || *have % unit != 0)) {
        more = read(input->file, to + *have, length - *have);
        if (more > 0) {
            *have += (size_t)more;
        } else if (more == -1 && errno != EINTR) {
            file_complaint(input->name, input_advice());
            return 0;
        }
    }
    return 1;
}

uint64_t input_size(const struct input *input)
{
    struct stat file;

    return fstat(input->file, &file) == 0 && S_ISREG(file.st_mode) ? (uint64_t)file.st_size : 0;
}

int input_skip(struct input *input, uint64_t bytes)
{
    uint8_t passed[4096];
    size_t have = 1;

    if (input_size(input) > 0 && bytes <= INT64_MAX && lseek(input->file, (off_t)bytes, SEEK_CUR) != (off_t)-1)
        return 1;
    while (bytes > 0 && have > 0) {
        if (!input_read(input, passed, bytes < sizeof passed ? (size_t)bytes : sizeof passed, &have))
            return 0;
        bytes -= have;
    }
    return 1;
}

void input_close(struct input *input)
{
    if (input->file > 2)
        close(input->file);
}

int input_all(const char *name, uint8_t *to, size_t limit, const char *what, size_t *length)
{
    struct input input;
    struct text most = {0};
    int done;

    if (!input_open(&input, name))
        return TROUBLE;
    done = input_read(&input, to, limit + 1, length);
    input_close(&input);
    if (!done)
        return TROUBLE;
    if (*length <= limit)
        return DONE;
    text_grouped(&most, limit);
    complain("%s: it has more than %.*s bytes, and %s has no more than that", input.name, (int)most.length, most.bytes,
             what);
    text_free(&most);
    return REFUSED;
}

/* ---- byte by byte ---- */

#define SOURCE_BYTES 65536

int source_open(struct source *source, const char *name)
{
    memset(source, 0, sizeof *source);
    if (!input_open(&source->input, name))
        return 0;
    source->buffer = get_memory(SOURCE_BYTES);
    return 1;
}

int source_fill(struct source *source)
{
    if (source->failed)
        return 0;
    source->taken += source->end;
    source->at = source->end = 0;
    source->failed = !input_some(&source->input, source->buffer, SOURCE_BYTES, 1, &source->end);
    return source->end > 0 && !source->failed;
}

size_t source_take(struct source *source, uint8_t *to, size_t length)
{
    size_t have = 0;

    while (have < length && source_peek(source) != -1) {
        size_t more = source->end - source->at;

        more = more < length - have ? more : length - have;
        memcpy(to + have, source->buffer + source->at, more);
        source->at += more;
        have += more;
    }
    return have;
}

void source_close(struct source *source)
{
    input_close(&source->input);
    free(source->buffer);
}
