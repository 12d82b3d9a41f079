/* Text that is written, and the troubles of writing. */
#define _XOPEN_SOURCE 700
#include <errno.h>
#include <stdlib.h>
#include <unistd.h>

#include "tool.h"

static int text_file = 1;

static const char *output_advice(void)
{
    switch (errno) {
    case ENOSPC: return "Make room on that disk, or write to another one.";
    case ENOENT: return "Make the folder first.";
    case EACCES: return "You may not write there: make it writable (chmod u+w), or choose another name or folder.";
    case EROFS: return "That disk is for reading only: choose another folder.";
    case EISDIR: return "Name a file in it.";
    case EBADF: return "It is closed: send the output somewhere.";
    default: return NULL;
    }
}

void write_trouble(const char *name)
{
    file_complaint(name, output_advice());
    exit(TROUBLE);
}

void write_all(int file, const char *name, const void *bytes, size_t length)
{
    const char *from = bytes;

    while (length > 0) {
        ssize_t done = write(file, from, length);

        if (done == -1 && errno != EINTR)
            write_trouble(name);
        if (done > 0) {
            from += done;
            length -= (size_t)done;
        }
    }
}

void output_aside(void)
{
    text_file = 2;
}

void output_text(struct text *text)
{
    progress_clear();
    write_all(text_file, text_file == 1 ? "standard output" : "standard error", text->bytes, text->length);
    text->length = 0;
}

/* Some file systems tell of a write that failed only when the file is closed. */
void output_end(void)
{
    if (close(1) == -1 && errno != EBADF)
        write_trouble("standard output");
}
