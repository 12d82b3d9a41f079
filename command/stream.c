/*
 * A file of records, in threads.
 *
 * It is taken in runs of whole records. Whoever takes a run turns it into text, and the texts are written in the order
 * in which the runs were taken. With -j several threads do that; each holds one run, however long the file is. Where
 * the file comes slowly, as through a pipe, a run is what has come so far.
 */
#include <pthread.h>
#include <stdlib.h>
#include <string.h>

#include "tool.h"

#define RUN_BYTES 65536

struct stream {
    const struct layout *layout;
    const struct options *options;
    struct input input;
    size_t length; /* of a record */
    size_t run_bytes; /* of a run: whole records */

    pthread_mutex_t taking; /* guards the input and the next four */
    uint64_t taken, records;
    uint64_t left; /* how many records may still be taken */
    int ended, unread; /* unread: the file could not be read on */

    pthread_mutex_t writing; /* guards the rest */
    pthread_cond_t moved;
    uint64_t written, over_records, over_bytes;
    struct progress progress;
    int status;
};

struct run {
    uint64_t ticket, first_record;
    uint8_t *bytes;
    size_t length;
    struct record refused;
    uint64_t over_records, over_bytes; /* bytes that belong to no field */
    int failed;
};

/* Takes the next run. Returns 0 where the file is at its end. Of a record that could not be read whole nothing is
 * shown. */
static int run_take(struct stream *stream, struct run *run)
{
    size_t length = stream->length;
    size_t most;

    pthread_mutex_lock(&stream->taking);
    most = stream->left < stream->run_bytes / length ? (size_t)stream->left * length : stream->run_bytes;
    run->length = 0;
    if (!stream->ended && most > 0 && !input_some(&stream->input, run->bytes, most, length, &run->length)) {
        stream->unread = stream->ended = 1;
        run->length -= run->length % length;
    }
    run->ticket = stream->taken;
    run->first_record = stream->records;
    stream->ended |= run->length == 0 || run->length % length != 0;
    stream->taken += run->length > 0;
    stream->records += (run->length + length - 1) / length;
    stream->left -= run->length / length;
    pthread_mutex_unlock(&stream->taking);
    return run->length > 0;
}

static void run_show(struct stream *stream, struct run *run, struct desk *desk)
{
    size_t length = stream->length;
    size_t whole = run->length - (has(stream->options, OPTION_STRICT) ? run->length % length : 0);
    size_t at;

    run->failed = 0;
    run->over_records = run->over_bytes = 0;
    for (at = 0; at < whole && !run->failed; at += length) {
        struct record record = {run->bytes + at, run->length - at < length ? run->length - at : length, 0, 0, 0,
                                {{0, 0, 0}, 0}};

        record.number = run->first_record + at / length;
        record.first_byte = record.number * length;
        run->failed = !record_show(desk, &record);
        run->refused = record;
        run->over_records += record.over > 0;
        run->over_bytes += record.over;
    }
}

/* The last record may be cut: a note says so, or it is refused. */
static int cut_record(const struct stream *stream, const struct run *run)
{
    size_t left = run->length % stream->length;
    int strict = has(stream->options, OPTION_STRICT);

    if (left == 0)
        return DONE;
    complain("%s%s ends inside record %llu, which has %lu of %lu bytes", strict ? "" : "note: ", stream->input.name,
             (unsigned long long)(run->first_record + run->length / stream->length), (unsigned long)left,
             (unsigned long)stream->length);
    return strict ? REFUSED : DONE;
}

/* Writes the text of the run once those before it are written, and nothing after a refusal. Returns 0 where there was
 * one. */
static int run_write(struct stream *stream, struct run *run, struct desk *desk)
{
    int status;

    pthread_mutex_lock(&stream->writing);
    while (stream->written != run->ticket)
        pthread_cond_wait(&stream->moved, &stream->writing);
    if (stream->status == DONE) {
        output_text(&desk->out);
        if (run->failed)
            record_refused(&run->refused);
        stream->status = run->failed ? REFUSED : cut_record(stream, run);
        stream->over_records += run->over_records;
        stream->over_bytes += run->over_bytes;
        progress_step(&stream->progress, run->first_record - stream->options->from + run->length / stream->length,
                      (run->first_record - stream->options->from) * stream->length + run->length);
    }
    desk->out.length = 0;
    status = stream->status;
    stream->written++;
    pthread_cond_broadcast(&stream->moved);
    pthread_mutex_unlock(&stream->writing);
    return status == DONE;
}

static void *work(void *shared)
{
    struct stream *stream = shared;
    struct desk desk;
    struct run run;

    memset(&run, 0, sizeof run);
    desk_start(&desk, stream->layout, stream->options);
    desk.many = 1;
    run.bytes = get_memory(stream->run_bytes);
    while (run_take(stream, &run)) {
        run_show(stream, &run, &desk);
        if (!run_write(stream, &run, &desk))
            break;
    }
    free(run.bytes);
    desk_end(&desk);
    return NULL;
}

/* The thread that called works too. A thread that cannot be had leaves its work to the others. */
static void work_together(struct stream *stream, size_t jobs)
{
    pthread_t *threads = get_memory(jobs * sizeof *threads);
    size_t count = 0;

    while (count + 1 < jobs && pthread_create(&threads[count], NULL, work, stream) == 0)
        count++;
    work(stream);
    while (count > 0)
        pthread_join(threads[--count], NULL);
    free(threads);
}

static void show_count(uint64_t records)
{
    struct text out = {0};

    text_string(&out, records > 0 ? "\n" : "");
    text_count(&out, records, "record\n", "records\n");
    output_text(&out);
    text_free(&out);
}

static void stream_run(struct stream *stream)
{
    pthread_mutex_init(&stream->taking, NULL);
    pthread_mutex_init(&stream->writing, NULL);
    pthread_cond_init(&stream->moved, NULL);
    work_together(stream, stream->options->jobs);
    pthread_cond_destroy(&stream->moved);
    pthread_mutex_destroy(&stream->writing);
    pthread_mutex_destroy(&stream->taking);
    progress_clear();
}

/* What is still to be read of the file, for the progress line. */
static uint64_t bytes_to_read(const struct stream *stream)
{
    uint64_t size = input_size(&stream->input), passed = stream->options->from * stream->length;

    size = size > passed ? size - passed : 0;
    return stream->left < size / stream->length ? stream->left * stream->length : size;
}

int read_many(struct desk *desk, size_t length, const char *name)
{
    const struct options *options = desk->options;
    struct stream stream;

    memset(&stream, 0, sizeof stream);
    stream.layout = desk->layout;
    stream.options = options;
    stream.length = length;
    stream.records = options->from;
    stream.left = has(options, OPTION_COUNT) ? options->count_of : UINT64_MAX;
    if (!input_open(&stream.input, name))
        return TROUBLE;
    desk_head(desk);
    progress_start(&stream.progress, "records", bytes_to_read(&stream));
    stream.run_bytes = RUN_BYTES / length * length;
    stream.unread = !input_skip(&stream.input, options->from * length);
    if (!stream.unread)
        stream_run(&stream);
    input_close(&stream.input);
    if (stream.unread)
        return TROUBLE;
    if (options->from > 0 && stream.records == options->from)
        complain("note: %s has no record %llu", stream.input.name, (unsigned long long)options->from);
    if (stream.status == DONE)
        note_over(options, stream.over_records, stream.over_bytes);
    if (options->form == PEOPLE && stream.status == DONE)
        show_count(stream.records - options->from);
    return stream.status;
}
