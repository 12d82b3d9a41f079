/*
 * curlew.h - packed mark records
 *
 * A record is a row of values packed into bytes: a candidate's number, name and marks. A short text, the layout, says
 * what the record holds and in which order. The layout language is that of Tcl's `binary format` and `binary scan`,
 * within the types listed below. A sheet keeps a whole table of values in a file, with those that are not set.
 *
 *   curlew_pack           turns values into the bytes of a record
 *   curlew_read           turns the bytes of a record back into values
 *   curlew_prepare        reads a layout once, for packing and reading by a plan
 *   curlew_pack_plan      packs as curlew_pack does, by a plan
 *   curlew_read_plan      reads as curlew_read does, by a plan
 *   curlew_compare        reads two copies of one record and says what differs
 *   curlew_sheet_write    writes a table of values as a sheet
 *   curlew_sheet_read     reads a sheet back into a table
 *   curlew_sheet_rescue   keeps what is whole of a damaged sheet
 *   curlew_mean           gives the mean of a candidate's marks
 *   curlew_layout         says how many slots a layout takes and how long its records are
 *   curlew_fields         says what each field of a layout is and where it begins
 *   curlew_promises       says whether a layout may grow, loses nothing and may be joined
 *   curlew_extends        says whether a layout is another one with fields added
 *   curlew_from_perl      turns a pack template of Perl into a layout
 *   curlew_version        gives the version of the library
 *
 * What a call does, which runs it reads and writes, what it replies and what it refuses stands at its declaration,
 * below. In front of them is what all of them share.
 *
 * Link with libcurlew.a or libcurlew.so. The header serves C99 and C++, the library x86-64. Of other libraries it
 * needs memcpy, memmove and memset alone, which every C library has. It allocates nothing, keeps no state and does no
 * input or output, and a call takes less than CURLEW_STACK bytes of stack (measured). The calls are proved to do what
 * is said here; the helpers at the end of this header are plain C.
 *
 * No text ends in a zero byte here: a layout, a template, a string and a record have just the length that is given.
 *
 * A mark is what a candidate got. The place in the area from which a reading puts its values is called its start mark.
 *
 *
 * SIX MISTAKES THAT ARE EASILY MADE
 *
 * The length of a record is its own and not that of its buffer. The bytes after the record would be read too, and
 * zero bytes are marks of 0. The reply of packing has the length; write
 *
 *   curlew_read(layout, strlen(layout), record, curlew_get_answer(packed).first,    and not sizeof record
 *
 * A reading sets some slots and leaves the others as they were. Clear the table before it, or ask the reply how many
 * it set: a slot from there on still shows what was in it before.
 *
 *   memset(slots, 0, sizeof slots);                                  before curlew_read
 *   marked = leg < curlew_get_answer(reply).first;                   or this after it
 *
 * A slot that is not set cannot be packed (number 6): in a record every byte is a value, and a leg that nobody marked
 * would be a 0. Leave such legs out at the end, or keep the table as a sheet, which has a place for them anywhere.
 *
 *   curlew_sheet_write(slots, sizeof slots, area, used, sheet, sizeof sheet, reply, sizeof reply);
 *
 * The zero byte at the end of a C string is none of the layout's: with it the layout has an unknown type at its end
 * (number 2).
 *
 *   curlew_pack(layout, strlen(layout),                              and not sizeof layout
 *
 * A run that is larger than its limit is refused (number 1), also one that is only to be written: packing wants no
 * more room than a record may have. Give it a part of a larger run.
 *
 *   out, room < CURLEW_MAX_RECORD ? room : CURLEW_MAX_RECORD,        and not out, room
 *
 * An integer that its field has no room for is not refused: packing stores its low-order bits, so a mark of 256 packed
 * by `cu` is read as 0, and one of 200 packed by `c` as -56. Choose a field that holds the largest mark, or look at
 * the value before you pack it.
 *
 *   if (mark < 0 || mark > 255) ..                                   before a `cu` is packed
 *
 *
 * VALUES: SLOTS AND THE AREA
 *
 * Values live in two runs of bytes that you own:
 *
 *   the area    a run of bytes that holds the values themselves, in any order, with or without gaps;
 *   the slots   a run of slots. A slot is CURLEW_SLOT_SIZE (16) bytes: four big-endian 32-bit numbers. Kind, start
 *               and length say what the value is and where in the area it lies; position is the byte of the record
 *               at which its field began. Only curlew_read and curlew_compare set a position; a slot set from a
 *               sheet has CURLEW_NO_POSITION there. No call looks at it.
 *
 *   kind                  the value
 *   CURLEW_UNSET     0    there is none; start and length mean nothing
 *   CURLEW_STRING    1    `length` bytes of the area, from byte `start` on
 *   CURLEW_SIGNED    2    `length` integers from byte `start` on, each CURLEW_ITEM_SIZE (8) bytes:
 *                         a big-endian 64-bit number in two's complement
 *   CURLEW_UNSIGNED  3    the same, unsigned
 *   CURLEW_REAL      4    `length` reals from byte `start` on, each the CURLEW_ITEM_SIZE (8) bytes of a double
 *                         (IEEE 754 binary64), big-endian
 *
 * For integers and reals, `length` counts items and not bytes. Bytes, slots and places count from 0. A slot of
 * sixteen zero bytes is not set, so memset(slots, 0, sizeof slots) clears a table. The helpers at the end of
 * this header put and get slots, integers, reals and answers.
 *
 *
 * A TABLE, BUILT AND TAKEN APART
 *
 * A struct curlew_table lies over your two runs. It knows how much of each is in use, and no helper that is given one
 * writes or reads past them.
 *
 *   slots, slots_room, slots_used    the run of slots, how many bytes it has room for, and how many are in use
 *   area, area_room, area_used       the same of the area
 *   full                             1 as soon as a value did not fit
 *
 * Add the values in the order of the fields, and give what is in use to a call that takes a table:
 *
 *   struct curlew_table table = curlew_table_over(slots, sizeof slots, area, sizeof area);
 *
 *   curlew_table_add_text(&table, "Ada", 3);
 *   curlew_table_add_ints(&table, marks, 2);
 *   curlew_table_add_unset(&table);
 *   number = curlew_sheet_write(table.slots, table.slots_used, table.area, table.area_used,
 *                               sheet, sizeof sheet, reply, sizeof reply);
 *
 * Each of them answers 1, or 0 where slots or area have no room left. It has added nothing then, and nothing is added
 * after it, so no value takes the slot of another. A full table has a cut slot at its end, if its run has room for a
 * slot at all: every call refuses it with number 1, and nothing is lost without a word.
 *
 * To read into a table give the whole rooms, and say afterwards how many slots the reading set and how many the table
 * has; those that were not in the record are not set then:
 *
 *   curlew_table_clear(&table);
 *   number = curlew_read(layout, strlen(layout), record, length, table.slots, table.slots_room,
 *                        table.area, table.area_room, 0, reply, sizeof reply);
 *   if (number == CURLEW_OK && curlew_table_use(&table, curlew_get_answer(reply).first, 3)
 *       && curlew_table_int(&table, 1, 0, &mark))
 *       printf("%lld\n", (long long)mark);
 *
 * curlew_table_text, curlew_table_int, curlew_table_uint and curlew_table_real take values out. They answer 1 where
 * the slot is in use and has such a value, and the value lies inside the area; else 0, and what you gave for the value
 * stays as it was. A slot that is not set is never taken for a number.
 *
 *
 * LAYOUTS
 *
 * A layout is a row of fields. A field is a type character, perhaps the flag `u`, and perhaps a count: decimal
 * digits or `*`. No space may stand inside a field; any number of spaces may stand before each field and
 * after the last. `a8 A20 Su Iu c6` is a layout of five fields; the empty layout has none. It needs no zero
 * byte at its end: its length is given.
 *
 *   type   value         packing stores                           reading gives
 *   a      string        count bytes, cut or padded with zeros    count bytes
 *   A      string        the same, padded with spaces             the same without the spaces and zero
 *                                                                 bytes at its end
 *   b      digits 0 1    count digits, the first in the low bit   count digits
 *   B      digits 0 1    count digits, the first in the high bit  count digits
 *   h      hex digits    count digits, low half first             count digits, in lower case
 *   H      hex digits    count digits, high half first            count digits, in lower case
 *   c      integers      count items of 1 byte                    count integers
 *   s S    integers      count items of 2 bytes                   count integers
 *   i I    integers      count items of 4 bytes                   count integers
 *   w W    integers      count items of 8 bytes                   count integers
 *   r R    reals         count singles of 4 bytes, the nearest    count reals
 *   q Q    reals         count doubles of 8 bytes                 count reals
 *   x      no slot       count zero bytes, over old bytes too     nothing; moves forward, at most to the end
 *   X      no slot       nothing; moves back, at most to 0        the same
 *   @      no slot       nothing; moves to byte `count`           the same, at most to the end
 *
 * Every field but x X @ takes the next slot. Strings and digits are strings of bytes (CURLEW_STRING).
 *
 * Integers: a small letter is little-endian, a capital big-endian. Packing keeps the low-order bits of each
 * integer and takes both integer kinds. Reading gives CURLEW_SIGNED or, with the flag `u`, CURLEW_UNSIGNED.
 * Packing ignores the flag, and after every other type reading ignores it too: `au20` is `a20`, `xu2` is `x2`.
 * One flag may stand in a field; a second is an unknown type.
 *
 * Reals: a small letter is little-endian, a capital big-endian. q Q keep the eight bytes of each double as they
 * are. r R store the single (binary32) nearest to it, at a tie the one whose last bit is 0, numbers too small for a
 * normal single too; the sign always stays. What is too large, an infinity too, becomes the largest finite single; a
 * NaN is refused with 16. Reading a single gives the double that equals it. A NaN that is read has the sign it had,
 * and its payload moves up 29 bits, so a signalling one stays signalling. The flag changes nothing.
 *
 * Digits: a field fills whole bytes, count/8 (b B) or count/2 (h H) rounded up. Digits that are missing are
 * stored as 0, spare bits are 0 and are skipped in reading, and digits past the count are not looked at.
 *
 * Counts:
 *   none     1, and for integers and reals in packing: the slot holds exactly one. `@` must have a count.
 *   number   at most CURLEW_MAX_COUNT; leading zeros are allowed. Items in packing: the slot holds at least
 *            that many, and the first ones are stored.
 *   *        packing: all of the value. Reading: all that remains of the record, in whole items.
 *            `X*` goes to 0. `@*` goes to the highest position so far in packing, to the end in reading.
 *            `x*` goes to the end in reading and is refused in packing.
 *
 *
 * ANSWERS
 *
 * Every call but curlew_version returns a number and writes three big-endian 32-bit numbers into the reply, the same
 * one first. Some calls write more after them. Where the call is accepted the number is CURLEW_OK, and the two after
 * it are said at the call; where it is refused they are the place of the fault, and 0. curlew_get_answer gets the
 * three.
 *
 *   no.  constant            refused because                                        place
 *    1   CURLEW_BAD_SIZE     a run is larger than its limit (see SIZES; also a run  0
 *                            that is only written), the slots are no multiple of
 *                            CURLEW_SLOT_SIZE, or the start mark lies above the
 *                            area's length; rescue: more than CURLEW_MAX_SLOTS
 *                            legs
 *    2   CURLEW_BAD_TYPE     the layout has an unknown type                         its byte in the layout
 *    3   CURLEW_BAD_COUNT    a count is larger than CURLEW_MAX_COUNT                byte of its first digit
 *    4   CURLEW_BAD_MOVE     `@` has no count, or packing met `x*`                  byte of the type character
 *    5   CURLEW_BAD_SLOTS    packing: not one slot for each field that takes one;   0
 *                            reading a record or a sheet: too few slots;
 *                            rescue: fewer slots than legs; extends: the new        extends: byte of the first
 *                            layout takes more than CURLEW_MAX_SLOTS                field too many
 *    6   CURLEW_NOT_SET      packing: the slot is not set                           the slot
 *    7   CURLEW_BAD_SLOT     packing, writing a sheet, mean: the slot's kind is     the slot
 *                            above 4, or its value does not lie inside the area
 *    8   CURLEW_WRONG_KIND   packing: of string, integers and reals the field       the slot
 *                            wants one and the slot has another; mean: a
 *                            string or a real
 *    9   CURLEW_BAD_LIST     packing: fewer items than the count, or another        the slot
 *                            number than one where the field has no count;
 *                            mean: not exactly one integer
 *   10   CURLEW_BAD_DIGIT    packing: a digit that counts is not a digit            the slot
 *   11   CURLEW_NO_ROOM      the result does not fit the output run, or the         0
 *                            values do not fit the area from the start mark on;
 *                            the report does not hold the findings; a layout
 *                            from Perl is longer than its run or
 *                            CURLEW_MAX_LAYOUT; the run does not hold the rows
 *                            of the fields, or the plan;
 *                            extends: the record of the new layout is longer        extends: byte of the first
 *                            than CURLEW_MAX_RECORD                                 field that ends past it
 *   12   CURLEW_BAD_SHEET    the sheet is too short or its header's length is       0
 *                            wrong, or a version 2 sheet would fit version 1;
 *                            the length or the kind of an entry is wrong            the entry's first byte
 *   13   CURLEW_BAD_VERSION  the sheet's first byte is neither 1 nor 2              0
 *   14   CURLEW_BAD_MARK     mean: the mark is below 0 or above CURLEW_MAX_MARK     the slot
 *   15   CURLEW_BAD_TEMPLATE from Perl: no template goes on with this byte, or the  its byte; the template's
 *                            template ends inside a group                           length
 *   16   CURLEW_BAD_REAL     packing: a NaN among the reals that r R store          the slot
 *   17   CURLEW_OTHER_FIELDS extends: the new layout does not begin with the        byte of its first field that
 *                            old one's fields                                       differs; its length
 *   18   CURLEW_NOT_PLAIN    extends: the new layout has a field that keeps it      byte of that field
 *                            from growing
 *
 * Where packing or reading goes by a plan, the place of 2, 3 and 4 is the number of the field.
 *
 * The checks are made in the order that each call says. No byte is written before the last of them: a refusal writes
 * the reply and nothing else. A reply of a wrong size makes the call return 1 and write nothing at all.
 *
 *
 * SIZES
 *
 *   layout                  at most CURLEW_MAX_LAYOUT          256 bytes
 *   slots                   at most CURLEW_MAX_SLOTS            64 slots, CURLEW_SLOT_SIZE bytes each
 *   record, output run      at most CURLEW_MAX_RECORD       32,768 bytes
 *   area                    at most CURLEW_MAX_AREA        524,288 bytes
 *   sheet, run for one      at most CURLEW_MAX_SHEET     1,048,576 bytes
 *   count in a layout       at most CURLEW_MAX_COUNT        32,768 (from Perl: 4,096)
 *   template of Perl        at most CURLEW_MAX_TEMPLATE        256 bytes
 *   legs of a rescue        at most CURLEW_MAX_SLOTS            64
 *   plan                    at most CURLEW_MAX_PLAN            256 numbers of 32 bits
 *   reply                   exactly CURLEW_PACK_REPLY, CURLEW_READ_REPLY, CURLEW_PREPARE_REPLY, CURLEW_SHEET_REPLY,
 *                           CURLEW_RESCUE_REPLY, CURLEW_COMPARE_REPLY, CURLEW_MEAN_REPLY, CURLEW_PERL_REPLY,
 *                           CURLEW_LAYOUT_REPLY, CURLEW_FIELDS_REPLY, CURLEW_PROMISES_REPLY or
 *                           CURLEW_EXTENDS_REPLY bytes
 *
 * Number 1 compares the lengths that you give to a call with these limits. The output run must be no larger than a
 * record may be, even where the result is short, and so must the run for a sheet. The report of curlew_compare and
 * the runs for a layout from Perl, for a layout's fields and for a plan may have any length. A run of length 0 may be
 * a null pointer.
 *
 *
 * YOUR DUTY
 *
 * - Every pointer leads to as many bytes as the length beside it says, that of a plan to as many numbers of type
 *   uint32_t.
 * - No run that a call writes (each is said at the call's declaration) overlaps any other run given to the same
 *   call. Runs that are only read may overlap one another.
 * - Nobody else writes any of these runs until the call returns.
 * - For curlew_mean alone: the rounding mode is to nearest (FE_TONEAREST), as it is at the start of every C
 *   program. A thread that changed it by fesetround sets it back before it asks for a mean.
 *
 * All that this header promises rests on these four.
 *
 *
 * THREADS
 *
 * The library holds no state. Any number of threads may call its functions at once, as long as each call
 * keeps the duties above. Threads may share runs that nobody writes, such as layouts.
 *
 *
 * EXAMPLE
 *
 * Packs a name and two marks, then reads the record by a layout that knows a third mark as well.
 * Prints: Ada, 2 marks: 17 0, third not marked
 *
 *   #include <stdio.h>
 *   #include <string.h>
 *   #include "curlew.h"
 *
 *   static const char old_layout[] = "A8 S2";
 *   static const char new_layout[] = "A8 S2 S";
 *   static const int64_t marks[] = {17, 0};
 *
 *   int main(void)
 *   {
 *       uint8_t slots[3 * CURLEW_SLOT_SIZE], area[64], record[64], reply[CURLEW_READ_REPLY];
 *       struct curlew_table table = curlew_table_over(slots, sizeof slots, area, sizeof area);
 *       const char *name;
 *       size_t length;
 *       int64_t first, second, third;
 *
 *       curlew_table_add_text(&table, "Ada", 3);
 *       curlew_table_add_ints(&table, marks, 2);
 *       if (curlew_pack(old_layout, strlen(old_layout), table.slots, table.slots_used, table.area, table.area_used,
 *                       record, sizeof record, reply, CURLEW_PACK_REPLY) != CURLEW_OK)
 *           return 1;
 *       length = curlew_get_answer(reply).first;
 *
 *       curlew_table_clear(&table);
 *       if (curlew_read(new_layout, strlen(new_layout), record, length, table.slots, table.slots_room,
 *                       table.area, table.area_room, 0, reply, CURLEW_READ_REPLY) != CURLEW_OK
 *           || !curlew_table_use(&table, curlew_get_answer(reply).first, 3)
 *           || !curlew_table_text(&table, 0, &name, &length)
 *           || !curlew_table_int(&table, 1, 0, &first) || !curlew_table_int(&table, 1, 1, &second))
 *           return 1;
 *       printf("%.*s, %u marks: %d %d, third %s\n", (int)length, name, (unsigned)curlew_table_slot(&table, 1).length,
 *              (int)first, (int)second, curlew_table_int(&table, 2, 0, &third) ? "marked" : "not marked");
 *       return 0;
 *   }
 */
#ifndef CURLEW_H
#define CURLEW_H

#include <stddef.h>
#include <stdint.h>
#include <string.h>

/* The version of this header and of its library; the number is 1,000 times the first part plus the second. */
#define CURLEW_VERSION "2.1"
#define CURLEW_VERSION_NUMBER 2001

/* A call takes less stack than this, in bytes. */
#define CURLEW_STACK 8192

/* Sizes in bytes of the things that have a fixed size. */
#define CURLEW_SLOT_SIZE 16
#define CURLEW_ITEM_SIZE 8
#define CURLEW_PACK_REPLY 12
#define CURLEW_READ_REPLY 16
#define CURLEW_PREPARE_REPLY 12
#define CURLEW_SHEET_REPLY 12
#define CURLEW_RESCUE_REPLY 16
#define CURLEW_COMPARE_REPLY 12
#define CURLEW_MEAN_REPLY 24
#define CURLEW_PERL_REPLY 12
#define CURLEW_LAYOUT_REPLY 12
#define CURLEW_FIELDS_REPLY 12
#define CURLEW_PROMISES_REPLY 16
#define CURLEW_EXTENDS_REPLY 16
#define CURLEW_FINDING_SIZE 12
#define CURLEW_FIELD_SIZE 32

/* Limits. */
#define CURLEW_MAX_LAYOUT 256
#define CURLEW_MAX_PLAN 256 /* numbers: a layout has no more fields than bytes */
#define CURLEW_MAX_SLOTS 64
#define CURLEW_MAX_RECORD 32768
#define CURLEW_MAX_AREA 524288
#define CURLEW_MAX_SHEET 1048576
#define CURLEW_MAX_COUNT 32768
#define CURLEW_MAX_MARK 1000000
#define CURLEW_MAX_TEMPLATE 256

/* Kinds of a slot. */
#define CURLEW_UNSET 0
#define CURLEW_STRING 1
#define CURLEW_SIGNED 2
#define CURLEW_UNSIGNED 3
#define CURLEW_REAL 4

/* The position in a slot that no record was read into. */
#define CURLEW_NO_POSITION 4294967295u

/* In the place of a byte where a promise is kept. */
#define CURLEW_NOWHERE 4294967295u

/* In the row of a field: no count, `*` as its count, no slot, and what starred values decide. */
#define CURLEW_NO_COUNT 4294967295u
#define CURLEW_STAR 4294967294u
#define CURLEW_NO_SLOT 4294967295u
#define CURLEW_OPEN 4294967295u

/* Verdicts of comparing. */
#define CURLEW_SAME 0
#define CURLEW_ONLY_FIRST 1
#define CURLEW_ONLY_SECOND 2
#define CURLEW_NEITHER 3
#define CURLEW_DIFFERENT 4

/* Numbers that come back. */
#define CURLEW_OK 0
#define CURLEW_BAD_SIZE 1
#define CURLEW_BAD_TYPE 2
#define CURLEW_BAD_COUNT 3
#define CURLEW_BAD_MOVE 4
#define CURLEW_BAD_SLOTS 5
#define CURLEW_NOT_SET 6
#define CURLEW_BAD_SLOT 7
#define CURLEW_WRONG_KIND 8
#define CURLEW_BAD_LIST 9
#define CURLEW_BAD_DIGIT 10
#define CURLEW_NO_ROOM 11
#define CURLEW_BAD_SHEET 12
#define CURLEW_BAD_VERSION 13
#define CURLEW_BAD_MARK 14
#define CURLEW_BAD_TEMPLATE 15
#define CURLEW_BAD_REAL 16
#define CURLEW_OTHER_FIELDS 17
#define CURLEW_NOT_PLAIN 18

#ifdef __cplusplus
extern "C" {
#endif

/*
 * curlew_pack - packs values into a record
 *
 * Takes a layout and a table of values, one slot for each field that takes one, and puts the record at the front of
 * the run `out`. The record is as long as the highest position reached; bytes in it that nothing stored are zero. The
 * bytes of `out` after it stay as they were. curlew_layout says before how much room a record needs.
 *
 * A record may be made of parts: a cover with the candidate's name, a leg with the marks. Put the layout of the leg
 * right after that of the cover, with or without a space, and its slots after the cover's slots. Packing by the
 * whole, over one area, then gives the bytes of the cover and after them the bytes of the leg, just as each layout
 * gives them alone: the cover `A8 Iu` and the leg `S2 c` make `A8 IuS2 c`. This is so for every two layouts without
 * X and @, with `*` too, where each part alone is accepted, the whole keeps to the sizes and the output run has
 * room for it. The empty layout, with no slots, adds nothing, before or after, and of three parts it does not
 * matter which two are put together first. A part that has an X or an @ may reach into the part in front of it.
 *
 * RUNS
 *
 * Reads layout, slots and area. Writes out and reply.
 *
 * REPLY
 *
 * CURLEW_PACK_REPLY (12) bytes: CURLEW_OK, the length of the record, 0.
 *
 * REFUSALS
 *
 * In this order: CURLEW_BAD_SIZE; CURLEW_BAD_TYPE, CURLEW_BAD_COUNT and CURLEW_BAD_MOVE for each field in turn, the
 * last for an `x*` too; CURLEW_BAD_SLOTS where there is not just one slot for each field that takes one; for each slot
 * in turn, the lower number first, CURLEW_NOT_SET, CURLEW_BAD_SLOT, CURLEW_WRONG_KIND, CURLEW_BAD_LIST,
 * CURLEW_BAD_DIGIT and CURLEW_BAD_REAL; CURLEW_NO_ROOM where the record is longer than `out`.
 *
 * EXAMPLES
 *
 *   number = curlew_pack(layout, strlen(layout), table.slots, table.slots_used, table.area, table.area_used,
 *                        record, sizeof record, reply, CURLEW_PACK_REPLY);
 *   length = number == CURLEW_OK ? curlew_get_answer(reply).first : 0;
 */
uint32_t curlew_pack(const void *layout, size_t layout_len,
                     const uint8_t *slots, size_t slots_len,
                     const uint8_t *area, size_t area_len,
                     uint8_t *out, size_t out_len,
                     uint8_t *reply, size_t reply_len);

/*
 * curlew_read - reads the values out of a record
 *
 * Puts the values of the record into the area, from the start mark on, and sets a slot for each field that takes one.
 * The start mark is the place in the area where the first value goes. The values follow one another from there without
 * gaps, in the order of the fields, and the slot of each gets its kind, start, length and position. No other byte of
 * the area is touched. To read several records into one area, give the place that one reading answers as the start
 * mark of the next.
 *
 * Where the record has too few bytes left for a field, the reading ends there: that field's slot, and the slots
 * of the fields after it, stay as they were. It is no error. Clear the slots before you read, and a slot that is
 * still CURLEW_UNSET afterwards was not in the record. It never becomes a 0. Slots beyond those of the layout stay
 * as well. A record can only lose its tail, so "not set" comes back for the fields after its end: every field before
 * one that is set is set, too.
 *
 * A layout without X, @, `*` and counts of 0 may therefore grow: put new fields of the same sort after the old ones,
 * again without X, @, `*` and counts of 0, and old records can be read by the new layout and new records by the old
 * one. A record may also lose its end: what is left of it gives the values of the fields that are still whole.
 *
 * Reading loses nothing where every byte of the record belongs to a value and every bit of it is shown: a layout of
 * `a`, integers and `q Q`, without a count or with one, `b B` with counts that 8 divides and `h H` with even counts,
 * no count of 0 and no `*`, and a record of just the length that its fields fill. Read such a record and pack the
 * slots by the same layout, and you have it back; two of them that show the same values are the same bytes. With a `*`
 * it may be otherwise: `a*c` reads all of `xyz` into its first slot, and the second is not set.
 *
 * curlew_promises and curlew_extends say whether all this holds of your layouts.
 *
 * RUNS
 *
 * Reads layout and record. Writes slots, area and reply.
 *
 * REPLY
 *
 * CURLEW_READ_REPLY (16) bytes: CURLEW_OK, how many slots were set, the place in the area after the last value, and
 * after these three the steps: how many fields the reading went through. Fields of x, X and @ count, and so does the
 * one for which the record was too short; fields after that one do not. The steps are never more than the layout has
 * bytes, and 0 where the reading is refused. curlew_get_steps gets them.
 *
 * REFUSALS
 *
 * In this order: CURLEW_BAD_SIZE, also where the start mark lies above the area; CURLEW_BAD_TYPE, CURLEW_BAD_COUNT and
 * CURLEW_BAD_MOVE for each field in turn; CURLEW_BAD_SLOTS where there are fewer slots than fields that take one;
 * CURLEW_NO_ROOM where the values do not fit the area from the start mark on.
 *
 * EXAMPLES
 *
 *   curlew_table_clear(&table);
 *   number = curlew_read(layout, strlen(layout), record, length, table.slots, table.slots_room,
 *                        table.area, table.area_room, 0, reply, CURLEW_READ_REPLY);
 *   marked = number == CURLEW_OK && curlew_table_use(&table, curlew_get_answer(reply).first, 3)
 *       && curlew_table_int(&table, 2, 0, &mark);
 */
uint32_t curlew_read(const void *layout, size_t layout_len,
                     const uint8_t *record, size_t record_len,
                     uint8_t *slots, size_t slots_len,
                     uint8_t *area, size_t area_len,
                     size_t start_mark,
                     uint8_t *reply, size_t reply_len);

/*
 * curlew_prepare - reads a layout once, for packing and reading by a plan
 *
 * A program that packs or reads many records by one layout has it read once. A plan is a run of 32-bit numbers that you
 * own, one for each field of the layout and nothing else; lengths of plans count numbers and not bytes. A plan of
 * CURLEW_MAX_PLAN (256) numbers has room for every layout. Numbers after the plan stay as they were. Threads may share
 * a plan that none of them writes.
 *
 * By the plan of a layout curlew_pack_plan and curlew_read_plan leave and answer all that curlew_pack and curlew_read
 * do by the layout, byte for byte. One place differs: `x*` is good for reading and so in a plan, and packing refuses it
 * with CURLEW_BAD_MOVE, by a layout at its byte, by a plan at the number of its field.
 *
 * A plan is no file format. Its numbers mean something to the library that made them, and another version may number
 * types otherwise: keep the layout, and prepare it where the program starts.
 *
 * RUNS
 *
 * Reads layout. Writes plan and reply.
 *
 * REPLY
 *
 * CURLEW_PREPARE_REPLY (12) bytes: CURLEW_OK, the numbers of the plan, the slots that the layout takes.
 *
 * REFUSALS
 *
 * Those of a layout that is read, at the same bytes: CURLEW_BAD_SIZE; CURLEW_BAD_TYPE, CURLEW_BAD_COUNT and
 * CURLEW_BAD_MOVE for each field in turn. Then CURLEW_NO_ROOM where the run has fewer numbers than the layout has
 * fields.
 *
 * EXAMPLES
 *
 *   uint32_t plan[CURLEW_MAX_PLAN];
 *   number = curlew_prepare(layout, strlen(layout), plan, CURLEW_MAX_PLAN, reply, CURLEW_PREPARE_REPLY);
 *   planned = number == CURLEW_OK ? curlew_get_answer(reply).first : 0;
 */
uint32_t curlew_prepare(const void *layout, size_t layout_len,
                        uint32_t *plan, size_t plan_len,
                        uint8_t *reply, size_t reply_len);

/*
 * curlew_pack_plan - packs values into a record by a plan
 *
 * Does what curlew_pack does, by a plan in the place of the layout. Every run of numbers gets an answer, also one that
 * no layout gave.
 *
 * RUNS
 *
 * Reads plan, slots and area. Writes out and reply.
 *
 * REPLY
 *
 * CURLEW_PACK_REPLY (12) bytes: CURLEW_OK, the length of the record, 0.
 *
 * REFUSALS
 *
 * CURLEW_BAD_SIZE, also for a plan of more than CURLEW_MAX_PLAN numbers; for each number of the plan in turn
 * CURLEW_BAD_TYPE where it has no type, CURLEW_BAD_COUNT where its count is over the limit, CURLEW_BAD_MOVE for an `@`
 * without a count and for an `x*`, with the number of the field, counted from 0, as the place; then those of
 * curlew_pack.
 *
 * EXAMPLES
 *
 *   number = curlew_pack_plan(plan, planned, table.slots, table.slots_used, table.area, table.area_used,
 *                             record, sizeof record, reply, CURLEW_PACK_REPLY);
 */
uint32_t curlew_pack_plan(const uint32_t *plan, size_t plan_len,
                          const uint8_t *slots, size_t slots_len,
                          const uint8_t *area, size_t area_len,
                          uint8_t *out, size_t out_len,
                          uint8_t *reply, size_t reply_len);

/*
 * curlew_read_plan - reads the values out of a record by a plan
 *
 * Does what curlew_read does, by a plan in the place of the layout. Every run of numbers gets an answer, also one that
 * no layout gave.
 *
 * RUNS
 *
 * Reads plan and record. Writes slots, area and reply.
 *
 * REPLY
 *
 * CURLEW_READ_REPLY (16) bytes, as for curlew_read.
 *
 * REFUSALS
 *
 * CURLEW_BAD_SIZE, also for a plan of more than CURLEW_MAX_PLAN numbers; for each number of the plan in turn
 * CURLEW_BAD_TYPE, CURLEW_BAD_COUNT and CURLEW_BAD_MOVE as for curlew_pack_plan, but `x*` is taken; then those of
 * curlew_read.
 *
 * EXAMPLES
 *
 *   number = curlew_read_plan(plan, planned, record, length, table.slots, table.slots_room,
 *                             table.area, table.area_room, 0, reply, CURLEW_READ_REPLY);
 */
uint32_t curlew_read_plan(const uint32_t *plan, size_t plan_len,
                          const uint8_t *record, size_t record_len,
                          uint8_t *slots, size_t slots_len,
                          uint8_t *area, size_t area_len,
                          size_t start_mark,
                          uint8_t *reply, size_t reply_len);

/*
 * curlew_compare - says what differs between two copies of a record
 *
 * Reads two records by one layout, each from start mark 0 into a table and an area of its own, just as two calls of
 * curlew_read would leave them, and writes a finding for each field that takes a slot into the report. A finding is
 * CURLEW_FINDING_SIZE (12) bytes, three big-endian 32-bit numbers: the verdict, a place and a number of bits.
 *
 *   CURLEW_SAME          0    both copies have the field, with the same value
 *   CURLEW_ONLY_FIRST    1    the second copy is too short for it
 *   CURLEW_ONLY_SECOND   2    the first copy is too short for it
 *   CURLEW_NEITHER       3    both copies are too short for it
 *   CURLEW_DIFFERENT     4    both have it, with different values
 *
 * Place and bits are 0 unless the values differ. The place is then the first byte of the value, as it lies in
 * the area, at which the two part (the shorter length where one is the beginning of the other), and the bits
 * are those that differ over the length that both have. An integer is eight bytes there. The report may have any
 * length that holds the findings; its other bytes stay as they were. curlew_get_finding gets a finding.
 *
 * RUNS
 *
 * Reads layout, first and second. Writes both tables, both areas, report and reply.
 *
 * REPLY
 *
 * CURLEW_COMPARE_REPLY (12) bytes: CURLEW_OK, how many findings there are, 0.
 *
 * REFUSALS
 *
 * All those of reading the first copy, then all those of reading the second; then CURLEW_NO_ROOM where the report does
 * not hold the findings.
 *
 * EXAMPLES
 *
 *   number = curlew_compare(layout, strlen(layout), record, length, copy, copy_length,
 *                           first_slots, sizeof first_slots, first_area, sizeof first_area,
 *                           second_slots, sizeof second_slots, second_area, sizeof second_area,
 *                           report, sizeof report, reply, CURLEW_COMPARE_REPLY);
 *   same = number == CURLEW_OK && curlew_get_finding(report, 0).verdict == CURLEW_SAME;
 */
uint32_t curlew_compare(const void *layout, size_t layout_len,
                        const uint8_t *first, size_t first_len,
                        const uint8_t *second, size_t second_len,
                        uint8_t *first_slots, size_t first_slots_len,
                        uint8_t *first_area, size_t first_area_len,
                        uint8_t *second_slots, size_t second_slots_len,
                        uint8_t *second_area, size_t second_area_len,
                        uint8_t *report, size_t report_len,
                        uint8_t *reply, size_t reply_len);

/*
 * curlew_sheet_write - writes a table as a sheet
 *
 * A record holds one value after the other, so a leg that is not set can only be missing at its end. A sheet
 * keeps every slot of a table, set or not:
 *
 *   byte 0      the version: 1
 *   bytes 1-2   the length of all that is after them, big-endian
 *   then, for each slot in turn, an entry:
 *     2 bytes   the length of the rest of the entry, big-endian
 *     1 byte    the slot's kind
 *     the value: no byte for CURLEW_UNSET, the bytes of a string, 8 bytes for each integer or real
 *
 * A table of three slots, not set, the string OK and the integer -2, is the sheet
 *
 *   01  00 13   00 01  00   00 03  01  4f 4b   00 09  02  ff ff ff ff ff ff ff fe
 *
 * and the three bytes 01 00 00 are a table of no slots. Starts and positions are not kept: where a value lay in the
 * area, or in a record, is of no matter. The call writes the slots given to it; the bytes of the run after the sheet
 * stay as they were. Where there is room for it, writing a table and reading it back shows the same values, and the
 * slots of a sheet that was read are written as the same sheet, byte for byte.
 *
 * A value that several slots share is stored once for each of them. So a table may have a sheet with more bytes of
 * values than an area holds: two slots over one value of 300,000 bytes are written, and no area can take the sheet
 * whole (number 11). Rescue by the legs that an area holds takes the entries from the front.
 *
 * Version 2 is for larger tables: its lengths have four bytes in both places, so its header has five bytes. A table
 * is written as version 1 wherever all lengths of that version are at most 65,535, whatever room the run has, and as
 * version 2 otherwise; a version 2 sheet whose table version 1 could hold is refused, so that a table has one sheet
 * only. Readers from before version 2 refuse it: with 1 where it is whole, since it is longer than they take, with 13
 * where it was cut to what they take.
 *
 * RUNS
 *
 * Reads slots and area. Writes sheet and reply.
 *
 * REPLY
 *
 * CURLEW_SHEET_REPLY (12) bytes: CURLEW_OK, the length of the sheet, 0.
 *
 * REFUSALS
 *
 * In this order: CURLEW_BAD_SIZE; CURLEW_BAD_SLOT for each slot in turn; CURLEW_NO_ROOM where the sheet is longer than
 * its run.
 *
 * EXAMPLES
 *
 *   number = curlew_sheet_write(table.slots, table.slots_used, table.area, table.area_used,
 *                               sheet, sizeof sheet, reply, CURLEW_SHEET_REPLY);
 *   length = number == CURLEW_OK ? curlew_get_answer(reply).first : 0;
 */
uint32_t curlew_sheet_write(const uint8_t *slots, size_t slots_len,
                            const uint8_t *area, size_t area_len,
                            uint8_t *sheet, size_t sheet_len,
                            uint8_t *reply, size_t reply_len);

/*
 * curlew_sheet_read - reads a sheet into a table
 *
 * Puts the values into the area from the start mark on, as curlew_read does, and sets a slot for each entry; an entry
 * that is not set clears its slot to CURLEW_UNSET, start 0, length 0. All slots that it sets have CURLEW_NO_POSITION.
 * Slots beyond the entries stay as they were.
 *
 * A sheet that was cut, or damaged in its lengths or kinds, is refused whole: 13 where its first byte is neither
 * version, 12 at 0 where it is shorter than its header or the length in the header is not that of the rest, 12 at the
 * first byte of the first entry that is wrong: too few bytes left for its length, a length of 0 or beyond the end, a
 * kind above 4, a value in an entry that is not set, or integers or reals that are no multiple of 8 bytes.
 * curlew_sheet_rescue keeps what is whole of it. What a sheet looks like is said at curlew_sheet_write.
 *
 * RUNS
 *
 * Reads sheet. Writes slots, area and reply.
 *
 * REPLY
 *
 * CURLEW_SHEET_REPLY (12) bytes: CURLEW_OK, how many entries there were, the place in the area after the last value.
 *
 * REFUSALS
 *
 * In this order: CURLEW_BAD_SIZE, also where the start mark lies above the area; CURLEW_BAD_VERSION; CURLEW_BAD_SHEET;
 * CURLEW_BAD_SLOTS where there are fewer slots than entries; CURLEW_NO_ROOM where the values do not fit the area from
 * the start mark on.
 *
 * EXAMPLES
 *
 *   number = curlew_sheet_read(sheet, length, table.slots, table.slots_room, table.area, table.area_room, 0,
 *                              reply, CURLEW_SHEET_REPLY);
 *   if (number == CURLEW_OK)
 *       curlew_table_use(&table, curlew_get_answer(reply).first, curlew_get_answer(reply).first);
 */
uint32_t curlew_sheet_read(const uint8_t *sheet, size_t sheet_len,
                           uint8_t *slots, size_t slots_len,
                           uint8_t *area, size_t area_len,
                           size_t start_mark,
                           uint8_t *reply, size_t reply_len);

/*
 * curlew_sheet_rescue - keeps what is whole of a damaged sheet
 *
 * Takes what is left of a sheet, and the number of legs that it should have had. From the front it keeps each entry
 * that is whole and right, as curlew_sheet_read would take it, until it has one for every leg or meets one that is
 * wrong: nothing after a wrong entry can be trusted. The kept entries go into slots and area as that call puts them,
 * and the slots of the other legs are cleared to CURLEW_UNSET, start 0, length 0, without a position, so that a lost
 * leg reads "not set" and never as a mark. Slots past the legs, and bytes of the area that no kept value covers, stay
 * as they were. The length in the header is not looked at, and both versions are taken, whichever the kept entries
 * would be written as.
 *
 * A sheet that curlew_sheet_read accepts, with an entry for every leg, is rescued as it is read. A sheet that was cut
 * keeps exactly the entries that end at or before the cut, and needs room for their values alone. Write the rescued
 * slots again: where curlew_sheet_write accepts them, and there are slots and room, a rescue of that sheet keeps every
 * leg, clears none and drops nothing.
 *
 * RUNS
 *
 * Reads sheet. Writes slots, area and reply.
 *
 * REPLY
 *
 * CURLEW_RESCUE_REPLY (16) bytes, four numbers: CURLEW_OK, entries kept, slots cleared, bytes dropped. Kept and
 * cleared add up to the legs. Dropped are the bytes that belong neither to the header nor to a kept entry; of a sheet
 * shorter than its header that is every byte. curlew_get_dropped gets them.
 *
 * REFUSALS
 *
 * In this order: CURLEW_BAD_SIZE, also where there are more than CURLEW_MAX_SLOTS legs or the start mark lies above
 * the area; CURLEW_BAD_VERSION; CURLEW_BAD_SLOTS where there are fewer slots than legs; CURLEW_NO_ROOM where the kept
 * values do not fit the area from the start mark on.
 *
 * EXAMPLES
 *
 *   number = curlew_sheet_rescue(sheet, length, 3, table.slots, table.slots_room, table.area, table.area_room, 0,
 *                                reply, CURLEW_RESCUE_REPLY);
 *   if (number == CURLEW_OK)
 *       curlew_table_use(&table, 3, 3);
 */
uint32_t curlew_sheet_rescue(const uint8_t *sheet, size_t sheet_len,
                             size_t legs,
                             uint8_t *slots, size_t slots_len,
                             uint8_t *area, size_t area_len,
                             size_t start_mark,
                             uint8_t *reply, size_t reply_len);

/*
 * curlew_mean - gives the mean of the marked legs
 *
 * Takes a table in which each slot is a leg: not set, or one integer from 0 to CURLEW_MAX_MARK, signed or unsigned. It
 * gives the mean of the legs that are set, as a double. A leg of 0 counts; a leg that is not set does not, so it never
 * pulls the mean down. Where no leg is set, or there are no slots, there is no mean. The sum and the number of marks
 * are whole numbers, and the mean is the double nearest to their quotient, at a tie the even one.
 *
 * RUNS
 *
 * Reads slots and area. Writes reply.
 *
 * REPLY
 *
 * CURLEW_MEAN_REPLY (24) bytes:
 *
 *   bytes 0-11    the answer: CURLEW_OK, how many slots are not set, 0; or the refusal
 *   bytes 12-15   1 where a mean follows, else 0
 *   bytes 16-23   the mean, a big-endian double (zero bytes where there is none)
 *
 * curlew_get_mean takes it out.
 *
 * REFUSALS
 *
 * In this order: CURLEW_BAD_SIZE; then for each slot in turn CURLEW_BAD_SLOT, CURLEW_WRONG_KIND for a string or a
 * real, CURLEW_BAD_LIST where it is not exactly one integer, and CURLEW_BAD_MARK.
 *
 * EXAMPLES
 *
 *   number = curlew_mean(table.slots + 2 * CURLEW_SLOT_SIZE, table.slots_used - 2 * CURLEW_SLOT_SIZE,
 *                        table.area, table.area_used, reply, CURLEW_MEAN_REPLY);
 *   marked = number == CURLEW_OK && curlew_get_mean(reply, &mean);
 */
uint32_t curlew_mean(const uint8_t *slots, size_t slots_len,
                     const uint8_t *area, size_t area_len,
                     uint8_t *reply, size_t reply_len);

/*
 * curlew_layout - says how many slots a layout takes and how long its records are
 *
 * Answers how many slots packing by the layout takes, and how long the record is that it packs where every starred
 * value is empty. No record that is packed by the layout is shorter, and without stars every one has just this length:
 * it sizes your buffers. A starred value may add to it what it fills. X, x and @ are counted as packing makes them:
 * `a5X2a1` packs 5 bytes, `@10` packs 10. The length is the true one, up to 8 times CURLEW_MAX_COUNT for a field;
 * above CURLEW_MAX_RECORD no packing by the layout is accepted, and neither is one with more slots than
 * CURLEW_MAX_SLOTS.
 *
 * RUNS
 *
 * Reads layout. Writes reply.
 *
 * REPLY
 *
 * CURLEW_LAYOUT_REPLY (12) bytes: CURLEW_OK, the slots that it takes, the length of its shortest record.
 *
 * REFUSALS
 *
 * A layout that packing would refuse is refused just so: CURLEW_BAD_SIZE; then CURLEW_BAD_TYPE, CURLEW_BAD_COUNT and
 * CURLEW_BAD_MOVE for each field in turn, with the place.
 *
 * EXAMPLES
 *
 *   number = curlew_layout(layout, strlen(layout), reply, CURLEW_LAYOUT_REPLY);
 *   length = number == CURLEW_OK ? curlew_get_answer(reply).second : 0;
 */
uint32_t curlew_layout(const void *layout, size_t layout_len,
                       uint8_t *reply, size_t reply_len);

/*
 * curlew_fields - says what each field of a layout is and where it begins
 *
 * Writes a row for each field of the layout, in their order: CURLEW_FIELD_SIZE (32) bytes, eight big-endian 32-bit
 * numbers, which curlew_get_field takes out.
 *
 *   place      the byte of the layout at which its type character stands
 *   length     how many bytes of the layout it takes, its flag and its count with it
 *   type       its type character
 *   flag       1 where it has the flag `u`, else 0
 *   count      its count; CURLEW_NO_COUNT where it has none, CURLEW_STAR for `*`
 *   slot       the slot that it takes; CURLEW_NO_SLOT for x X @
 *   position   the byte of the record at which packing begins it; CURLEW_OPEN where starred values decide that
 *   bytes      how many bytes of the record it fills, none for X and @; CURLEW_OPEN where it is starred
 *
 * The layout `A8 Su2 c*X @16 c` has six rows:
 *
 *   place  length  type  flag  count            slot            position     bytes
 *       0       2  'A'      0  8                0               0            8
 *       3       3  'S'      1  2                1               8            4
 *       7       2  'c'      0  CURLEW_STAR      2               12           CURLEW_OPEN
 *       9       1  'X'      0  CURLEW_NO_COUNT  CURLEW_NO_SLOT  CURLEW_OPEN  0
 *      11       3  '@'      0  16               CURLEW_NO_SLOT  CURLEW_OPEN  0
 *      15       1  'c'      0  CURLEW_NO_COUNT  3               16           1
 *
 * A position that is given is so in every record that is packed by the layout. After a starred value it is open,
 * until an `@` with a count or `X*` goes to a place that is known again; `@*` goes to the highest position so far,
 * which stays open after a starred value. Without starred values a record is as long as the largest of all position
 * + bytes and of all counts of `@`, which is the length that curlew_layout answers. In a layout without X, @, `*` and
 * counts of 0 the positions are those that curlew_read gives to the slots.
 *
 * A layout is judged as curlew_read judges it: `x*` is taken here, and counts as starred. The run may have any length
 * that holds the rows; CURLEW_MAX_LAYOUT rows are always enough. Its other bytes stay as they were.
 *
 * RUNS
 *
 * Reads layout. Writes fields and reply.
 *
 * REPLY
 *
 * CURLEW_FIELDS_REPLY (12) bytes: CURLEW_OK, how many fields there are, 0.
 *
 * REFUSALS
 *
 * In this order: CURLEW_BAD_SIZE; CURLEW_BAD_TYPE, CURLEW_BAD_COUNT and CURLEW_BAD_MOVE for each field in turn;
 * CURLEW_NO_ROOM where the run does not hold the rows.
 *
 * EXAMPLES
 *
 *   number = curlew_fields(layout, strlen(layout), fields, sizeof fields, reply, CURLEW_FIELDS_REPLY);
 *   for (i = 0; number == CURLEW_OK && i < curlew_get_answer(reply).first; i++)
 *       printf("%c\n", (int)curlew_get_field(fields, i).type);
 */
uint32_t curlew_fields(const void *layout, size_t layout_len,
                       uint8_t *fields, size_t fields_len,
                       uint8_t *reply, size_t reply_len);

/*
 * curlew_promises - says whether a layout may grow, loses nothing and may be joined
 *
 * Answers where the layout breaks each of three promises:
 *
 *   grows   it may grow at its end: no X, no @, no `*`, no count of 0, and within the limits
 *   keeps   reading loses nothing: only a, integers and q Q, b B with counts that 8 divides and h H with even counts;
 *           no `*`, no count of 0, and within the limits
 *   joins   it may be joined with other such layouts: no X, no @
 *
 * The limits are at most CURLEW_MAX_SLOTS fields that take a slot, and a record of at most CURLEW_MAX_RECORD bytes,
 * those that x fills counted. Past them every packing is refused, so there would be no record of which grows or keeps
 * could speak; within them there always is one. The first field past a limit breaks both.
 *
 * RUNS
 *
 * Reads layout. Writes reply.
 *
 * REPLY
 *
 * CURLEW_PROMISES_REPLY (16) bytes, four numbers: CURLEW_OK, grows, keeps, joins. Each of the three is CURLEW_NOWHERE
 * where the promise is kept, and else the byte of the layout at which the first field stands that breaks it. The
 * layout `a6 A12 Su` answers CURLEW_NOWHERE, 3, CURLEW_NOWHERE: it may grow and be joined, and byte 3, the A, drops
 * blanks. `a32768 c` answers 7, 7, CURLEW_NOWHERE: with the c its record would be too long. curlew_get_answer gets
 * grows and keeps, as first and second, and curlew_get_joins the third.
 *
 * REFUSALS
 *
 * A layout that packing would refuse is refused just so: CURLEW_BAD_SIZE; then CURLEW_BAD_TYPE, CURLEW_BAD_COUNT and
 * CURLEW_BAD_MOVE for each field in turn.
 *
 * EXAMPLES
 *
 *   number = curlew_promises(layout, strlen(layout), reply, CURLEW_PROMISES_REPLY);
 *   grows = number == CURLEW_OK && curlew_get_answer(reply).first == CURLEW_NOWHERE;
 */
uint32_t curlew_promises(const void *layout, size_t layout_len,
                         uint8_t *reply, size_t reply_len);

/*
 * curlew_extends - says whether a layout is another one with fields added
 *
 * Takes last year's layout and this year's. It accepts the two where the new one is the old one with fields added at
 * its end, or with none, and is one that may grow (see curlew_promises). Then all is well between the years: either
 * layout reads the records of both, whole or cut, and gives every field that is whole with its value.
 *
 * Fields count and not the text: two are the same where they agree in type, flag and count. `c3 su` and `c03su` have
 * the same fields; `c` is not `c1`, since without a count a slot holds exactly one integer.
 *
 * What was added year after year may be asked for each year alone: where this year's layout extends last year's, and
 * next year's this year's, next year's extends last year's, too.
 *
 * RUNS
 *
 * Reads both layouts. Writes reply.
 *
 * REPLY
 *
 * CURLEW_EXTENDS_REPLY (16) bytes, four numbers: CURLEW_OK, fields of the old layout, fields added, 0. The fourth
 * number of a refusal says in which layout the place lies: 0 in the old one, 1 in the new one (curlew_get_which).
 *
 * REFUSALS
 *
 * The layouts that packing would refuse, the old one first. Then CURLEW_OTHER_FIELDS for a new layout that does not
 * begin with the old one's fields, at its first field that differs, or at its length where it has too few. Then one
 * that may not grow: CURLEW_NOT_PLAIN at its first X, @, `*` or count of 0; CURLEW_BAD_SLOTS at the first field that
 * takes a slot more than CURLEW_MAX_SLOTS; CURLEW_NO_ROOM at the first field that ends past CURLEW_MAX_RECORD bytes.
 *
 *   curlew_extends("A8 S2", 5, "A8 S2 S", 7, reply, sizeof reply)     CURLEW_OK, 2, 1, 0
 *   curlew_extends("A8 S2", 5, "A8 S3", 5, reply, sizeof reply)       CURLEW_OTHER_FIELDS, 3, 0, 1
 *   curlew_extends("A8 S2", 5, "A8 S2 c*", 8, reply, sizeof reply)    CURLEW_NOT_PLAIN, 6, 0, 1
 *   curlew_extends("S2", 2, "S2 a32768", 9, reply, sizeof reply)      CURLEW_NO_ROOM, 3, 0, 1
 *
 * EXAMPLES
 *
 *   number = curlew_extends(layout, strlen(layout), new_layout, strlen(new_layout), reply, CURLEW_EXTENDS_REPLY);
 *   added = number == CURLEW_OK ? curlew_get_answer(reply).second : 0;
 */
uint32_t curlew_extends(const void *old_layout, size_t old_layout_len,
                        const void *new_layout, size_t new_layout_len,
                        uint8_t *reply, size_t reply_len);

/*
 * curlew_from_perl - turns a pack template of Perl into a layout
 *
 * Writes the layout that the template stands for into the run `layout`. It takes these letters, each with a count from
 * 1 to 4,096 or none:
 *
 *   Perl     a   b   B   h   H   x   C    n    N    v    V
 *   layout   a   b   B   h   H   x   cu   Su   Iu   su   iu
 *
 * and groups: items in brackets, one at least, with a number of times from 1 to 64 or none after the bracket, at
 * most 8 inside one another. `(n2a3)2 C` becomes `Su2a3Su2a3cu`. An item may have spaces on both sides, but none
 * before its count; numbers have no leading zeros. A count makes one list: `n2` takes one slot of two
 * integers. The other letters of Perl are refused, also `A`, which strips other characters there. An empty
 * template is the empty layout. Bytes of the run after the layout stay as they were.
 *
 * RUNS
 *
 * Reads perl_template. Writes layout and reply.
 *
 * REPLY
 *
 * CURLEW_PERL_REPLY (12) bytes: CURLEW_OK, the length of the layout, 0.
 *
 * REFUSALS
 *
 * In this order: CURLEW_BAD_SIZE; CURLEW_BAD_TEMPLATE at the first byte with which no template goes on, or at the
 * template's length where it ends inside a group; CURLEW_NO_ROOM where the layout is longer than its run or than
 * CURLEW_MAX_LAYOUT.
 *
 * EXAMPLES
 *
 *   number = curlew_from_perl("a6 (n)3", 7, made, sizeof made, reply, CURLEW_PERL_REPLY);
 *   length = number == CURLEW_OK ? curlew_get_answer(reply).first : 0;
 */
uint32_t curlew_from_perl(const void *perl_template, size_t perl_template_len,
                          void *layout, size_t layout_len,
                          uint8_t *reply, size_t reply_len);

/*
 * curlew_version - gives the version of the library
 *
 * Returns the CURLEW_VERSION_NUMBER of the header that the library was made with: 1,000 times the first part of the
 * version plus the second. A program that loads the shared object may look whether it is the one that it was compiled
 * for. A library with the same first part, and a second that is not smaller, serves it.
 *
 * RUNS
 *
 * None. There is no reply.
 *
 * EXAMPLES
 *
 *   served = curlew_version() / 1000 == CURLEW_VERSION_NUMBER / 1000 && curlew_version() >= CURLEW_VERSION_NUMBER;
 */
uint32_t curlew_version(void);

#ifdef __cplusplus
}
#endif

/* A slot's four numbers. */
struct curlew_slot {
    uint32_t kind;
    uint32_t start;
    uint32_t length;
    uint32_t position;
};

/* A finding's three numbers: the verdict, and where and in how many bits two values differ. */
struct curlew_finding {
    uint32_t verdict;
    uint32_t place;
    uint32_t bits;
};

/* A field's eight numbers: see curlew_fields. */
struct curlew_field {
    uint32_t place;
    uint32_t length;
    uint32_t type;
    uint32_t flag;
    uint32_t count;
    uint32_t slot;
    uint32_t position;
    uint32_t bytes;
};

/* An answer's three numbers: the number itself, then the two whose meaning depends on it. */
struct curlew_answer {
    uint32_t number;
    uint32_t first;
    uint32_t second;
};

/* A table over your runs, and how many bytes of each are in use: see A TABLE, BUILT AND TAKEN APART. */
struct curlew_table {
    uint8_t *slots;
    size_t slots_room;
    size_t slots_used;
    uint8_t *area;
    size_t area_room;
    size_t area_used;
    int full;
};

/* A cast in the form that each of the two languages likes. */
#ifdef __cplusplus
#define CURLEW_CAST(type, value) static_cast<type>(value)
#else
#define CURLEW_CAST(type, value) ((type)(value))
#endif

/* Puts a big-endian 32-bit number at `to`. */
static inline void curlew_put_number(uint8_t *to, uint32_t number)
{
    to[0] = CURLEW_CAST(uint8_t, number >> 24);
    to[1] = CURLEW_CAST(uint8_t, number >> 16 & 255);
    to[2] = CURLEW_CAST(uint8_t, number >> 8 & 255);
    to[3] = CURLEW_CAST(uint8_t, number & 255);
}

/* The big-endian 32-bit number at `from`. */
static inline uint32_t curlew_get_number(const uint8_t *from)
{
    return CURLEW_CAST(uint32_t, from[0]) << 24 | CURLEW_CAST(uint32_t, from[1]) << 16 |
           CURLEW_CAST(uint32_t, from[2]) << 8 | from[3];
}

/* Puts an unsigned integer, 8 bytes big-endian, at `to`. */
static inline void curlew_put_uint(uint8_t *to, uint64_t value)
{
    curlew_put_number(to, CURLEW_CAST(uint32_t, value >> 32));
    curlew_put_number(to + 4, CURLEW_CAST(uint32_t, value & 0xffffffffu));
}

/* The unsigned integer, 8 bytes big-endian, at `from`. */
static inline uint64_t curlew_get_uint(const uint8_t *from)
{
    return CURLEW_CAST(uint64_t, curlew_get_number(from)) << 32 | curlew_get_number(from + 4);
}

/* Puts a signed integer, 8 bytes big-endian in two's complement, at `to`. */
static inline void curlew_put_int(uint8_t *to, int64_t value)
{
    curlew_put_uint(to, CURLEW_CAST(uint64_t, value));
}

/* The signed integer, 8 bytes big-endian in two's complement, at `from`. */
static inline int64_t curlew_get_int(const uint8_t *from)
{
    uint64_t value = curlew_get_uint(from);

    return value >> 63 ? -CURLEW_CAST(int64_t, ~value) - 1 : CURLEW_CAST(int64_t, value);
}

/* Puts a real, the 8 bytes of a double big-endian, at `to`. */
static inline void curlew_put_double(uint8_t *to, double value)
{
    uint64_t bits;

    memcpy(&bits, &value, sizeof bits);
    curlew_put_uint(to, bits);
}

/* The real, the 8 bytes of a double big-endian, at `from`. */
static inline double curlew_get_double(const uint8_t *from)
{
    uint64_t bits = curlew_get_uint(from);
    double value;

    memcpy(&value, &bits, sizeof value);
    return value;
}

/* Puts kind, start and length of slot `index` of a run of slots; it has no position then. */
static inline void curlew_put_slot(uint8_t *slots, size_t index, uint32_t kind, uint32_t start, uint32_t length)
{
    uint8_t *slot = slots + index * CURLEW_SLOT_SIZE;

    curlew_put_number(slot, kind);
    curlew_put_number(slot + 4, start);
    curlew_put_number(slot + 8, length);
    curlew_put_number(slot + 12, CURLEW_NO_POSITION);
}

/* The four numbers of slot `index` of a run of slots. */
static inline struct curlew_slot curlew_get_slot(const uint8_t *slots, size_t index)
{
    const uint8_t *from = slots + index * CURLEW_SLOT_SIZE;
    struct curlew_slot slot;

    slot.kind = curlew_get_number(from);
    slot.start = curlew_get_number(from + 4);
    slot.length = curlew_get_number(from + 8);
    slot.position = curlew_get_number(from + 12);
    return slot;
}

/* Finding `index` of a report. */
static inline struct curlew_finding curlew_get_finding(const uint8_t *report, size_t index)
{
    const uint8_t *from = report + index * CURLEW_FINDING_SIZE;
    struct curlew_finding finding;

    finding.verdict = curlew_get_number(from);
    finding.place = curlew_get_number(from + 4);
    finding.bits = curlew_get_number(from + 8);
    return finding;
}

/* The row of field `index`, out of a run that curlew_fields wrote. */
static inline struct curlew_field curlew_get_field(const uint8_t *fields, size_t index)
{
    const uint8_t *from = fields + index * CURLEW_FIELD_SIZE;
    struct curlew_field field;

    field.place = curlew_get_number(from);
    field.length = curlew_get_number(from + 4);
    field.type = curlew_get_number(from + 8);
    field.flag = curlew_get_number(from + 12);
    field.count = curlew_get_number(from + 16);
    field.slot = curlew_get_number(from + 20);
    field.position = curlew_get_number(from + 24);
    field.bytes = curlew_get_number(from + 28);
    return field;
}

/* The three numbers of a reply. */
static inline struct curlew_answer curlew_get_answer(const uint8_t *reply)
{
    struct curlew_answer answer;

    answer.number = curlew_get_number(reply);
    answer.first = curlew_get_number(reply + 4);
    answer.second = curlew_get_number(reply + 8);
    return answer;
}

/* The bytes dropped, out of a reply of curlew_sheet_rescue. */
static inline uint32_t curlew_get_dropped(const uint8_t *reply)
{
    return curlew_get_number(reply + 12);
}

/* The steps, out of a reply of curlew_read. */
static inline uint32_t curlew_get_steps(const uint8_t *reply)
{
    return curlew_get_number(reply + 12);
}

/* Where the layout may not be joined, out of a reply of curlew_promises. */
static inline uint32_t curlew_get_joins(const uint8_t *reply)
{
    return curlew_get_number(reply + 12);
}

/* Which layout the place of a refusal is in, 0 for the old one and 1 for the new, out of a reply of curlew_extends. */
static inline uint32_t curlew_get_which(const uint8_t *reply)
{
    return curlew_get_number(reply + 12);
}

/* Takes the mean out of a reply of curlew_mean. Returns 1, or 0 where no leg is marked: *mean stays as it was then. */
static inline int curlew_get_mean(const uint8_t *reply, double *mean)
{
    uint64_t pattern = curlew_get_uint(reply + 16);

    if (curlew_get_number(reply + 12) == 0)
        return 0;
    memcpy(mean, &pattern, sizeof pattern);
    return 1;
}

/* Empties a table: no slot is in use, and every slot of its run is not set. */
static inline void curlew_table_clear(struct curlew_table *table)
{
    if (table->slots_room > 0)
        memset(table->slots, 0, table->slots_room);
    table->slots_used = 0;
    table->area_used = 0;
    table->full = 0;
}

/* An empty table over two runs. It uses whole slots, and of each run no more than its limit. */
static inline struct curlew_table curlew_table_over(uint8_t *slots, size_t slots_len, uint8_t *area, size_t area_len)
{
    size_t room = slots_len / CURLEW_SLOT_SIZE;
    struct curlew_table table;

    table.slots = slots;
    table.slots_room = (room < CURLEW_MAX_SLOTS ? room : CURLEW_MAX_SLOTS) * CURLEW_SLOT_SIZE;
    table.area = area;
    table.area_room = area_len < CURLEW_MAX_AREA ? area_len : CURLEW_MAX_AREA;
    curlew_table_clear(&table);
    return table;
}

/* How many slots of a table are in use. */
static inline size_t curlew_table_count(const struct curlew_table *table)
{
    return table->slots_used / CURLEW_SLOT_SIZE;
}

/* Says that something did not fit into a table: it is full, and its last slot is cut. Returns 0. */
static inline int curlew_table_overflow(struct curlew_table *table)
{
    if (!table->full && table->slots_used < table->slots_room)
        table->slots_used++;
    else if (!table->full && table->slots_used > 0)
        table->slots_used--;
    table->full = 1;
    return 0;
}

/*
 * Adds a slot of this kind, and room in the area for `length` items of `size` bytes, from byte area_used on as it was
 * before. The helpers below put the value there. Returns 1, or 0 where there is no room.
 */
static inline int curlew_table_add(struct curlew_table *table, uint32_t kind, size_t length, size_t size)
{
    size_t start = kind == CURLEW_UNSET ? 0 : table->area_used;

    if (table->full || table->slots_used >= table->slots_room
        || length > (table->area_room - table->area_used) / size)
        return curlew_table_overflow(table);
    curlew_put_slot(table->slots, curlew_table_count(table), kind, CURLEW_CAST(uint32_t, start),
                    CURLEW_CAST(uint32_t, length));
    table->slots_used += CURLEW_SLOT_SIZE;
    table->area_used += length * size;
    return 1;
}

/* Adds a string of len bytes. Returns 1, or 0 where there is no room. */
static inline int curlew_table_add_text(struct curlew_table *table, const void *text, size_t len)
{
    size_t start = table->area_used;

    if (!curlew_table_add(table, CURLEW_STRING, len, 1))
        return 0;
    if (len > 0)
        memmove(table->area + start, text, len);
    return 1;
}

/* Adds a list of signed integers, perhaps an empty one. Returns 1, or 0 where there is no room. */
static inline int curlew_table_add_ints(struct curlew_table *table, const int64_t *values, size_t count)
{
    size_t start = table->area_used;
    size_t i;

    if (!curlew_table_add(table, CURLEW_SIGNED, count, CURLEW_ITEM_SIZE))
        return 0;
    for (i = 0; i < count; i++)
        curlew_put_int(table->area + start + i * CURLEW_ITEM_SIZE, values[i]);
    return 1;
}

/* Adds one signed integer. Returns 1, or 0 where there is no room. */
static inline int curlew_table_add_int(struct curlew_table *table, int64_t value)
{
    return curlew_table_add_ints(table, &value, 1);
}

/* Adds a list of unsigned integers, perhaps an empty one. Returns 1, or 0 where there is no room. */
static inline int curlew_table_add_uints(struct curlew_table *table, const uint64_t *values, size_t count)
{
    size_t start = table->area_used;
    size_t i;

    if (!curlew_table_add(table, CURLEW_UNSIGNED, count, CURLEW_ITEM_SIZE))
        return 0;
    for (i = 0; i < count; i++)
        curlew_put_uint(table->area + start + i * CURLEW_ITEM_SIZE, values[i]);
    return 1;
}

/* Adds one unsigned integer. Returns 1, or 0 where there is no room. */
static inline int curlew_table_add_uint(struct curlew_table *table, uint64_t value)
{
    return curlew_table_add_uints(table, &value, 1);
}

/* Adds a list of reals, perhaps an empty one. Returns 1, or 0 where there is no room. */
static inline int curlew_table_add_reals(struct curlew_table *table, const double *values, size_t count)
{
    size_t start = table->area_used;
    size_t i;

    if (!curlew_table_add(table, CURLEW_REAL, count, CURLEW_ITEM_SIZE))
        return 0;
    for (i = 0; i < count; i++)
        curlew_put_double(table->area + start + i * CURLEW_ITEM_SIZE, values[i]);
    return 1;
}

/* Adds one real. Returns 1, or 0 where there is no room. */
static inline int curlew_table_add_real(struct curlew_table *table, double value)
{
    return curlew_table_add_reals(table, &value, 1);
}

/* Adds a slot that is not set. Returns 1, or 0 where there is no room. */
static inline int curlew_table_add_unset(struct curlew_table *table)
{
    return curlew_table_add(table, CURLEW_UNSET, 0, 1);
}

/*
 * Slot `index` of a table. Where it is not in use, or has an unknown kind, or its value does not lie inside the area,
 * it comes back as one that is not set.
 */
static inline struct curlew_slot curlew_table_slot(const struct curlew_table *table, size_t index)
{
    struct curlew_slot none = {CURLEW_UNSET, 0, 0, CURLEW_NO_POSITION};
    struct curlew_slot slot;

    if (index >= curlew_table_count(table))
        return none;
    slot = curlew_get_slot(table->slots, index);
    if (slot.kind == CURLEW_UNSET || slot.kind > CURLEW_REAL || slot.start > table->area_room
        || slot.length > (table->area_room - slot.start) / (slot.kind == CURLEW_STRING ? 1 : CURLEW_ITEM_SIZE))
        return none;
    return slot;
}

/*
 * After a reading that set the first `set` slots: the table has `count` slots in use, and those after the first
 * `set` are not set. The area is in use up to the last value. Returns 1; or 0 and a full table where there is no room
 * for `count` slots, or `set` is above `count`.
 */
static inline int curlew_table_use(struct curlew_table *table, size_t set, size_t count)
{
    size_t i;

    if (set > count || count > table->slots_room / CURLEW_SLOT_SIZE)
        return curlew_table_overflow(table);
    table->slots_used = count * CURLEW_SLOT_SIZE;
    for (i = set; i < count; i++)
        curlew_put_slot(table->slots, i, CURLEW_UNSET, 0, 0);
    for (i = 0; i < set; i++) {
        struct curlew_slot slot = curlew_table_slot(table, i);
        size_t end = slot.start
            + CURLEW_CAST(size_t, slot.length) * (slot.kind == CURLEW_STRING ? 1 : CURLEW_ITEM_SIZE);

        if (end > table->area_used)
            table->area_used = end;
    }
    return 1;
}

/* Takes out where the string of slot `index` lies and its length. Returns 1, or 0 where there is no string. */
static inline int curlew_table_text(const struct curlew_table *table, size_t index, const char **text, size_t *len)
{
    struct curlew_slot slot = curlew_table_slot(table, index);
    const void *at = "";

    if (slot.kind != CURLEW_STRING)
        return 0;
    if (slot.length > 0)
        at = table->area + slot.start;
    *text = CURLEW_CAST(const char *, at);
    *len = slot.length;
    return 1;
}

/* Where item `item` of a list in slot `index` lies, and its kind; NULL where there is none. */
static inline const uint8_t *curlew_table_item(const struct curlew_table *table, size_t index, size_t item,
                                               uint32_t *kind)
{
    struct curlew_slot slot = curlew_table_slot(table, index);

    if (slot.kind == CURLEW_UNSET || slot.kind == CURLEW_STRING || item >= slot.length)
        return NULL;
    *kind = slot.kind;
    return table->area + slot.start + item * CURLEW_ITEM_SIZE;
}

/* Takes an integer of either kind out of a list. Returns 1, or 0 where there is none, or none that an int64_t holds. */
static inline int curlew_table_int(const struct curlew_table *table, size_t index, size_t item, int64_t *value)
{
    uint32_t kind = CURLEW_UNSET;
    const uint8_t *at = curlew_table_item(table, index, item, &kind);

    if (at == NULL || kind == CURLEW_REAL || (kind == CURLEW_UNSIGNED && at[0] > 127))
        return 0;
    *value = curlew_get_int(at);
    return 1;
}

/* Takes an integer of either kind out of a list. Returns 1, or 0 where there is none, or a negative one. */
static inline int curlew_table_uint(const struct curlew_table *table, size_t index, size_t item, uint64_t *value)
{
    uint32_t kind = CURLEW_UNSET;
    const uint8_t *at = curlew_table_item(table, index, item, &kind);

    if (at == NULL || kind == CURLEW_REAL || (kind == CURLEW_SIGNED && at[0] > 127))
        return 0;
    *value = curlew_get_uint(at);
    return 1;
}

/* Takes a real out of a list. Returns 1, or 0 where there is none. */
static inline int curlew_table_real(const struct curlew_table *table, size_t index, size_t item, double *value)
{
    uint32_t kind = CURLEW_UNSET;
    const uint8_t *at = curlew_table_item(table, index, item, &kind);

    if (at == NULL || kind != CURLEW_REAL)
        return 0;
    *value = curlew_get_double(at);
    return 1;
}

/* A text for a number that came back. */
static inline const char *curlew_refusal(uint32_t number)
{
    switch (number) {
    case CURLEW_OK: return "accepted";
    case CURLEW_BAD_SIZE:
        return "a layout, a run or the legs exceed their limit, a slot is cut, or the start mark lies above the area";
    case CURLEW_BAD_TYPE: return "the layout has an unknown type";
    case CURLEW_BAD_COUNT: return "a count in the layout is too large";
    case CURLEW_BAD_MOVE: return "the layout has an @ without a count, or an x* in packing";
    case CURLEW_BAD_SLOTS: return "the slots are too few for the values, or too many for a packing";
    case CURLEW_NOT_SET: return "the slot is not set";
    case CURLEW_BAD_SLOT: return "the slot has an unknown kind, or its value lies outside the area";
    case CURLEW_WRONG_KIND: return "the slot holds another kind of value than the field wants";
    case CURLEW_BAD_LIST: return "the slot holds fewer items than the count, or not one where there is no count";
    case CURLEW_BAD_DIGIT: return "the slot's string has a character that is not a digit";
    case CURLEW_NO_ROOM: return "the result is longer than the run that is to hold it, or than its limit";
    case CURLEW_BAD_SHEET:
        return "the sheet was cut, a length or kind in it is wrong, or it is of version 2 and fits version 1";
    case CURLEW_BAD_VERSION: return "the sheet does not begin with a version that is known";
    case CURLEW_BAD_MARK: return "the mark lies outside 0 to 1,000,000";
    case CURLEW_BAD_TEMPLATE: return "the template cannot go on like this, or it ends inside a group";
    case CURLEW_BAD_REAL: return "the slot holds a NaN, which no single is stored for";
    case CURLEW_OTHER_FIELDS: return "the new layout does not begin with the fields of the old one";
    case CURLEW_NOT_PLAIN: return "the new layout has a field that keeps it from growing";
    default: return "unknown number";
    }
}

/*
 * Writes the layout, and below it a caret under a place of it, as a compiler points at a fault:
 *
 *   a6 c50000
 *       ^
 *
 * Bytes that do not print appear as dots; for a place past the end the caret stands one column past the last byte. Like
 * snprintf it writes at most to_len bytes, the zero byte at the end included, and returns how long the whole text is.
 */
static inline size_t curlew_point(const void *layout, size_t layout_len, size_t place, char *to, size_t to_len)
{
    const uint8_t *bytes = CURLEW_CAST(const uint8_t *, layout);
    size_t at = place < layout_len ? place : layout_len;
    size_t length = layout_len + 1 + at + 1;
    size_t i;

    for (i = 0; i < length && i + 1 < to_len; i++) {
        if (i < layout_len)
            to[i] = bytes[i] >= 32 && bytes[i] < 127 ? CURLEW_CAST(char, bytes[i]) : '.';
        else if (i == layout_len)
            to[i] = '\n';
        else
            to[i] = i + 1 < length ? ' ' : '^';
    }
    if (to_len > 0)
        to[i] = '\0';
    return length;
}

#undef CURLEW_CAST

#endif
