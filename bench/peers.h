/* What the parts of the benchmark's C program share. */
#ifndef PEERS_H
#define PEERS_H

#include "curlew.h"

#include <stdio.h>
#include <stdlib.h>
#include <string.h>
#include <time.h>

typedef uint32_t pack_call(const void *, size_t, const uint8_t *, size_t, const uint8_t *, size_t,
                           uint8_t *, size_t, uint8_t *, size_t);
typedef uint32_t read_call(const void *, size_t, const uint8_t *, size_t, uint8_t *, size_t,
                           uint8_t *, size_t, size_t, uint8_t *, size_t);
typedef uint32_t sheet_write_call(const uint8_t *, size_t, const uint8_t *, size_t, uint8_t *, size_t,
                                  uint8_t *, size_t);
typedef uint32_t sheet_read_call(const uint8_t *, size_t, uint8_t *, size_t, uint8_t *, size_t, size_t,
                                 uint8_t *, size_t);
typedef uint32_t compare_call(const void *, size_t, const uint8_t *, size_t, const uint8_t *, size_t,
                              uint8_t *, size_t, uint8_t *, size_t, uint8_t *, size_t, uint8_t *, size_t,
                              uint8_t *, size_t, uint8_t *, size_t);

/* How a library takes a layout: as its text, as a plan of ours, or as the fields that plain C keeps. */
enum form { TEXT, PLAN, KEPT, FORMS };

/*
 * Calls with the same interface: ours, ours by a plan, the twin's, plain C's, those of plain C with its fields kept, those by
 * hand. A library may lack the last three.
 */
struct library {
    const char *name;
    enum form form;
    pack_call *pack;
    read_call *read;
    sheet_write_call *sheet_write;
    sheet_read_call *sheet_read;
    compare_call *compare;
};

/*
 * Runs that are read begin at a page and runs that are written half a page after one, so that no copy is slowed by
 * where its two runs happen to lie.
 */
#define PAGE 4096
#define AT_PAGE __attribute__((aligned(PAGE)))

struct layout {
    char text[CURLEW_MAX_LAYOUT + 1];
    size_t length;
    uint32_t plan[CURLEW_MAX_PLAN];
    struct {
        const void *at;
        size_t length;
    } as[FORMS];
};

/*
 * One workload: what is packed, by which layout; which record is read, by which layout, and compared with which other
 * copy of it. Or a table and its sheet.
 */
struct work {
    char name[32];
    struct layout pack_layout;
    struct layout read_layout;
    uint8_t slots[CURLEW_MAX_SLOTS * CURLEW_SLOT_SIZE];
    size_t count;
    uint8_t area[CURLEW_MAX_AREA] AT_PAGE;
    size_t used;
    size_t room; /* of the area that is read into */
    uint8_t record[CURLEW_MAX_SHEET] AT_PAGE;
    size_t record_len;
    uint8_t second[CURLEW_MAX_RECORD] AT_PAGE;
    size_t second_len;
    void *tcl;
};

/* The fields of a layout, as plain C keeps them for many calls. */
void *plain_keep(const void *layout, size_t layout_len, int packing);

/* One call on a workload; the number that came back. */
typedef uint32_t once_call(const struct library *, const struct work *);

/* A call that libraries have: how it is made once, how its result is shown, and whether it packs. */
struct library_call {
    const char *name;
    once_call *once;
    void (*show)(const struct library *, const struct work *);
    int packs;
};

/* The libraries; the last has no name. */
extern const struct library libraries[];
const struct library *find_library(const char *name);
const struct library_call *find_call(const char *name);
once_call copy_once;
once_call memcmp_once;
void show_memcmp(const struct work *w);
uint64_t time_calls(once_call *once, const struct library *lib, const struct work *w, unsigned long n);

/* A million candidates: one layout, records of one length, side by side in one run. */
#define CROWD_LAYOUT "a8 A20 Su Iu c6 b12 H8"
#define CROWD_RECORD 46
#define CROWD_FIELDS 7
#define CROWD_NAME "Ada Lind"
#define CROWD_STRIP "110110101100"
#define CROWD_HEX "0badcafe"

struct crowd {
    void *(*open)(const void *with);
    void (*pack)(void *state, size_t from, size_t to, uint8_t *records);
    uint64_t (*read)(void *state, size_t from, size_t to, const uint8_t *records);
    void (*close)(void *state);
    const void *with;
};

void crowd_number(uint8_t *to, size_t candidate);
unsigned crowd_mark(size_t candidate);
void crowd_run(const struct crowd *crowd, unsigned threads, size_t records);
extern const struct crowd library_crowd;

/* Nanoseconds of processor time of this thread, and of the clock on the wall. */
uint64_t used_time(void);
uint64_t wall_time(void);

void stop(const char *why);

#ifndef NO_TCL
void tcl_start(void);
void tcl_prepare(struct work *work);
uint64_t tcl_time_pack(struct work *work, unsigned long n);
uint64_t tcl_time_read(struct work *work, unsigned long n);
void tcl_show_pack(struct work *work);
void tcl_show_read(struct work *work);
extern const struct crowd tcl_crowd;
#endif

#endif
