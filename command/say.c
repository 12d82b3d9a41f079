/* Messages and colours. */
#define _XOPEN_SOURCE 700
#include <errno.h>
#include <fcntl.h>
#include <stdarg.h>
#include <stdio.h>
#include <stdlib.h>
#include <string.h>
#include <time.h>
#include <unistd.h>

#include "tool.h"

static int colour_output;
static int colour_errors;
static int progress_shown;

static int wants_colour(int file)
{
    const char *refused = getenv("NO_COLOR");
    const char *terminal = getenv("TERM");

    return isatty(file) && (refused == NULL || refused[0] == '\0') && terminal != NULL && strcmp(terminal, "dumb") != 0;
}

/*
 * A file opened later must not become standard input, output or error because one of them was closed: such a one is
 * filled with /dev/null, opened the wrong way round, so that its first use fails and says so.
 */
void streams_start(void)
{
    int file;

    for (file = 0; file <= 2; file++)
        if (fcntl(file, F_GETFD) == -1 && errno == EBADF)
            (void)open("/dev/null", file == 0 ? O_WRONLY : O_RDONLY);
    colour_output = wants_colour(1);
    colour_errors = wants_colour(2);
}

int output_has_colours(void)
{
    return colour_output;
}

int errors_on_terminal(void)
{
    return isatty(2);
}

int output_on_terminal(void)
{
    return isatty(1);
}

/* A line that is drawn over until something else is said. */
void progress_line(const char *text)
{
    fprintf(stderr, "\r\033[K%s", text);
    fflush(stderr);
    progress_shown = text[0] != '\0';
}

void progress_clear(void)
{
    if (progress_shown)
        progress_line("");
}

/* One line, whatever stands in the names that it shows. It goes out by one write, so that lines of several threads do
 * not mix. */
static void message(const char *lead, const char *format, va_list arguments)
{
    struct text line = {0};
    char *formatted;
    va_list again;
    int length;

    progress_clear();
    va_copy(again, arguments);
    length = vsnprintf(NULL, 0, format, again);
    va_end(again);
    formatted = get_memory((size_t)length + 1);
    vsnprintf(formatted, (size_t)length + 1, format, arguments);
    text_string(&line, lead);
    text_message(&line, formatted, (size_t)length);
    text_char(&line, '\n');
    fwrite(line.bytes, 1, line.length, stderr);
    free(formatted);
    text_free(&line);
}

void complain(const char *format, ...)
{
    va_list arguments;

    va_start(arguments, format);
    message(colour_errors ? "\033[1;31mcurlew:\033[m " : "curlew: ", format, arguments);
    va_end(arguments);
}

void advise(const char *format, ...)
{
    va_list arguments;

    va_start(arguments, format);
    message("        ", format, arguments);
    va_end(arguments);
}

/* The text with a caret under a place of it, both lines drawn in. */
void caret(const void *text, size_t length, size_t place)
{
    size_t size = curlew_point(text, length, place, NULL, 0) + 1;
    char *drawing = get_memory(size);
    char *second;

    curlew_point(text, length, place, drawing, size);
    second = strchr(drawing, '\n');
    *second++ = '\0';
    advise("%s", drawing);
    advise("%s", second);
    free(drawing);
}

void text_caret(struct text *to, const char *lead, const void *text, size_t length, size_t place)
{
    size_t size = curlew_point(text, length, place, NULL, 0) + 1;
    char *drawing = get_memory(size);
    size_t first;

    curlew_point(text, length, place, drawing, size);
    first = strcspn(drawing, "\n");
    text_format(to, "%s%.*s\n%*s%s\n", lead, (int)first, drawing, (int)strlen(lead), "", drawing + first + 1);
    free(drawing);
}

void ink_on(struct text *text, enum ink ink)
{
    static const char *const inks[] = {"", "\033[1m", "\033[33m", "\033[31m", "\033[90m"};

    if (colour_output)
        text_string(text, inks[ink]);
}

void ink_off(struct text *text, enum ink ink)
{
    if (colour_output && ink != PLAIN)
        text_string(text, "\033[m");
}

/* ---- how far it is ---- */

#define PATIENCE 2000
#define REDRAWN 500

static int64_t milliseconds(void)
{
    struct timespec now;

    clock_gettime(CLOCK_MONOTONIC, &now);
    return (int64_t)now.tv_sec * 1000 + now.tv_nsec / 1000000 + 1;
}

void progress_start(struct progress *progress, const char *what, uint64_t all_bytes)
{
    memset(progress, 0, sizeof *progress);
    progress->what = what;
    progress->all_bytes = all_bytes;
    progress->began = errors_on_terminal() ? milliseconds() : 0;
}

static void progress_draw(const struct progress *progress, int64_t passed)
{
    struct text line = {0};

    text_grouped(&line, progress->done);
    text_format(&line, " %s", progress->what);
    if (progress->all_bytes > 0 && progress->bytes > 0 && progress->bytes <= progress->all_bytes) {
        uint64_t left =
            (uint64_t)((double)passed / (double)progress->bytes * (double)(progress->all_bytes - progress->bytes));

        text_format(&line, ", %lu %%, %lu s left", (unsigned long)(100 * progress->bytes / progress->all_bytes),
                    (unsigned long)((left + 999) / 1000));
    }
    text_char(&line, '\0');
    progress_line(line.bytes);
    text_free(&line);
}

void progress_step(struct progress *progress, uint64_t done, uint64_t bytes)
{
    int64_t now;

    if (progress->began == 0)
        return;
    now = milliseconds();
    progress->done = done;
    progress->bytes = bytes;
    if (now - progress->began < PATIENCE || now - progress->drawn < REDRAWN)
        return;
    progress->drawn = now;
    progress_draw(progress, now - progress->began);
}
