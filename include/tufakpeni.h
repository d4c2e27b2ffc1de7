/*
 * Tufakpeni: a proved reader of GDB trace files and of trace.dat files of version 6.
 *
 * Every call takes any file and any arguments, checks them itself and ends. No call keeps a pointer, takes memory or
 * writes anywhere but into the output that it is lent; of the stack it needs less than 1 KiB for a GDB trace and less than 9 KiB
 * for a trace.dat file (docs/PERFORMANCE.md). Where a length is 0 the pointer is not followed, but it may not be null
 * in C++'s or Rust's sense of a slice; a pointer to any object will do.
 *
 * `refusal` is 0 where the call answers, and else one of the numbers below; every other field is then 0, and a lent
 * output is unchanged. Lines, frames, blocks and CPUs count from 0. A place counts bytes from the file's start.
 *
 * A library that was made from another header reads and writes other structs: ask TFK_FITS() before the first call.
 */
#ifndef TUFAKPENI_H
#define TUFAKPENI_H

#include <stddef.h>
#include <stdint.h>

#ifdef __cplusplus
extern "C" {
#endif

/* The number of this interface. It changes with every struct, call and number of this header. */
#define TFK_INTERFACE 6

/* The number of the library's interface. */
uint64_t tfk_interface(void);

/* Whether the library has the structs, calls and numbers of this header. */
#define TFK_FITS() (tfk_interface() == TFK_INTERFACE)

/* The refusals: 1 to 18, and 24. */
enum {
    TFK_TOO_LONG = 1,            /* a file, or a join's result, is longer than 67,108,864 bytes */
    TFK_BAD_ARGUMENT = 2,        /* byte order not 0 or 1; base not 10 or 16; a range with low above high; more than 8 ranges */
    TFK_BAD_HEAD = 3,            /* the head differs or is cut short */
    TFK_NO_EMPTY_LINE = 4,       /* the description has no empty line */
    TFK_BAD_LINE = 5,            /* an ended `R ` line breaks its form in the chosen base, or a second `R ` or `status ` line */
    TFK_SHORT_HEAD = 6,          /* 1 to 5 bytes remain where a frame head should start, and do not begin with two bytes of 0 */
    TFK_DATA_PAST_FILE = 7,      /* a frame's data runs past the file */
    TFK_BAD_LETTER = 8,          /* a block letter other than R, M, V */
    TFK_BLOCK_PAST_DATA = 9,     /* a block runs past its frame's data */
    TFK_NO_REGISTER_SIZE = 10,   /* an `R` block where no R line was given */
    TFK_NO_ROOM = 11,            /* the result is longer than the output, or there are more frames than records */
    TFK_NOT_FOUND = 12,          /* no such line, frame, block, CPU; no covering block; no such register block or variable */
    TFK_OPENINGS_DIFFER = 13,    /* the openings to be joined differ */
    TFK_FIELD_PAST_FILE = 14,    /* a trace.dat field or named piece runs past the file */
    TFK_BAD_CONSTANT = 15,       /* a trace.dat fixed string, flag, long size or page size is wrong */
    TFK_BAD_RANGE = 16,          /* CPU count above 1,024; a CPU range misaligned, before the header's end or past the file */
    TFK_RANGES_OVERLAP = 17,     /* two CPU ranges overlap */
    TFK_BAD_MARK = 18,           /* a bad end mark: two bytes of 0 where a frame head should start, and not exactly four of 0 from there to the file's end */
    TFK_SECOND_REGISTERS = 24    /* a second `R` block in a frame */
};

/* ---- GDB traces ---- */

/* Behind its frames a GDB trace may have the end mark, four bytes of 0 up to the file's end. It is no frame and no part of one; no frame has the tracepoint number 0. */

/*
 * How a GDB trace is read; the file records neither. `order` is the byte order of its numbers, 0 little or 1 big; `base` is that of
 * the number in its R line, 16 or 10. Any other order or base is refused with 2, by every call that takes the settings and whatever
 * the file is. So a zeroed struct, whose base is 0, is refused with 2: take the ready value below.
 *
 * The R line says how many bytes a register block has. It is `R ` and then digits alone: no prefix, sign or blank.
 *   base 16: one to four digits, letters in either case. Debuggers write it so: `R 308` for 776.
 *   base 10: one to five digits, and a value of at most 65,535, as the published page has it: `R 776`.
 * Leading zeros count as digits. A line of another form is refused with 5.
 */
typedef struct {
    uint8_t order;
    uint8_t base;
} tfk_settings;

/* The ready value: base 16, and this byte order, which is not looked at yet. For base 10 set its `base` to 10. */
tfk_settings tfk_default_settings(uint8_t order);

typedef struct {
    uint8_t refusal;
    size_t count;
} tfk_count;

/* `marked` is 1 where the end mark is there and 0 where it is not. */
typedef struct {
    uint8_t refusal;
    uint8_t marked;
} tfk_mark;

/* A part of the file: `length` bytes from `place` on. */
typedef struct {
    uint8_t refusal;
    size_t place;
    size_t length;
} tfk_place;

/* The data of a frame that was asked for by its number: `length` bytes from `place` on. `heads` is the number of frame heads that were read for it. */
typedef struct {
    uint8_t refusal;
    size_t place;
    size_t length;
    size_t heads;
} tfk_frame_part;

/* The kinds of a line of the description. */
enum { TFK_LINE_OTHER = 0, TFK_LINE_R = 1, TFK_LINE_STATUS = 2, TFK_LINE_TP = 3, TFK_LINE_TSV = 4, TFK_LINE_TDESC = 5 };

/* A line, without its end. */
typedef struct {
    uint8_t refusal;
    uint8_t kind;
    size_t place;
    size_t length;
} tfk_line;

/* A frame's tracepoint number, and the place and size of its data. `has_registers` is 1 where it has an R block and 0 where it has none;
 * `registers_place` is the place of that block's bytes, behind its letter, and 0 where there is none. Where `has_registers` is 1,
 * tfk_registers_place answers that place for the frame; where it is 0, that call refuses with 12. There are as many bytes as the R line says,
 * maybe none. */
typedef struct {
    uint16_t tracepoint;
    uint8_t has_registers;
    size_t place;
    size_t size;
    size_t registers_place;
} tfk_frame;

/* A block: its letter ('R', 'M' or 'V'), and the place of that letter. Memory has address and length, a variable number and value; what a
 * kind does not have is 0. Of a frame's blocks at most one is an R block. */
typedef struct {
    uint8_t refusal;
    uint8_t letter;
    uint32_t number;
    size_t place;
    uint64_t address;
    size_t length;
    int64_t value;
} tfk_block;

typedef struct {
    uint8_t refusal;
    int64_t value;
} tfk_value;

/* The number of frames. */
tfk_count tfk_frame_count(tfk_settings settings, const uint8_t *file, size_t file_length);

/* Whether the file ends in the end mark. */
tfk_mark tfk_end_mark(tfk_settings settings, const uint8_t *file, size_t file_length);

/* The frame table: one record per frame; the answer is the number of frames. Records beyond the last frame stay unchanged; 11 where there are more frames than records.
 * The records may not overlap the file. */
tfk_count tfk_frame_table(tfk_settings settings, const uint8_t *file, size_t file_length, tfk_frame *out, size_t out_length);

/* Line j of the description; the closing empty line is not counted. */
tfk_line tfk_line_place(tfk_settings settings, const uint8_t *file, size_t file_length, size_t j);

/* The data of frame n. Of the file only these parts are read: the opening, the heads of frames 0 to n (or up to six bytes where one should start) and the
 * blocks of frame n. So the call costs what these parts cost, and it answers also where the file is at fault elsewhere; every other call about a GDB trace reads the whole file.
 * `heads` is n + 1. Refusals, in file order: 2, 1, 3 to 5 in the opening; 18, 6 and 7 in a head from 0 to n; 12 where the file's end or the end mark comes
 * first; 8, 24, 10 and 9 in the blocks of frame n. */
tfk_frame_part tfk_frame_place(tfk_settings settings, const uint8_t *file, size_t file_length, size_t n);

/* Block k of frame n. */
tfk_block tfk_block_record(tfk_settings settings, const uint8_t *file, size_t file_length, size_t n, size_t k);

/* The bytes of frame n's earliest R block, which is its only one, without the letter. */
tfk_place tfk_registers_place(tfk_settings settings, const uint8_t *file, size_t file_length, size_t n);

/* Memory at an address in frame n: from there to the end of the earliest block that covers it. */
tfk_place tfk_memory_place(tfk_settings settings, const uint8_t *file, size_t file_length, size_t n, uint64_t address);

/* The value of a variable in frame n: that of the latest V block with this number. */
tfk_value tfk_variable(tfk_settings settings, const uint8_t *file, size_t file_length, size_t n, uint32_t number);

/* ---- cut, join and pairs ---- */

/* Tracepoint numbers from low to high, both among them. */
typedef struct {
    uint16_t low;
    uint16_t high;
} tfk_range;

/* A selection: the first `count` ranges. `keep` 0 selects the numbers in none of them, any other value those in some. Ranges beyond the count are not looked at. */
typedef struct {
    tfk_range ranges[8];
    size_t count;
    uint8_t keep;
} tfk_selection;

/* How many bytes of the output were written; those beyond stay unchanged. */
typedef struct {
    uint8_t refusal;
    size_t length;
} tfk_length;

/* Which trace of a pair, 0 the first or 1 the second, and a part of that file. */
typedef struct {
    uint8_t refusal;
    uint8_t trace;
    size_t place;
    size_t length;
} tfk_pair_part;

/* The selection of the other sense. */
tfk_selection tfk_opposite(tfk_selection selection);

/* The opening, every selected frame, and the end mark if the file has one. The output may not overlap the file. */
tfk_length tfk_cut(tfk_settings settings, const uint8_t *file, size_t file_length, tfk_selection selection, uint8_t *out, size_t out_length);

/* The common opening, the first trace's frames, then the second's, and one end mark if either trace has one. The output may overlap neither file. */
tfk_length tfk_join(tfk_settings settings, const uint8_t *first, size_t first_length, const uint8_t *second, size_t second_length, uint8_t *out, size_t out_length);

/* The data of frame n of two traces read as if joined; 1 goes by the length of the join, its end mark counted. */
tfk_pair_part tfk_pair_place(tfk_settings settings, const uint8_t *first, size_t first_length, const uint8_t *second, size_t second_length, size_t n);

/* The value of a variable in frame n of two traces read as if joined: that of the frame's latest V block with this number. */
tfk_value tfk_pair_variable(tfk_settings settings, const uint8_t *first, size_t first_length, const uint8_t *second, size_t second_length, size_t n, uint32_t number);

/* ---- trace.dat, version 6 ---- */

/* A section of the file: `size` bytes from `place` on. */
typedef struct {
    size_t place;
    size_t size;
} tfk_part;

/* How a header ends. */
enum { TFK_ENDING_LATENCY = 0, TFK_ENDING_FLYRECORD = 1 };

/* A header: flags, counts and where each section stands. */
typedef struct {
    uint8_t refusal;
    uint8_t order;           /* 0 little, 1 big */
    uint8_t long_size;       /* 4 or 8 */
    uint8_t ending;
    uint32_t page_size;
    uint32_t format_count;   /* ftrace formats */
    uint32_t system_count;
    uint32_t cpu_count;
    tfk_part header_page;
    tfk_part header_event;
    tfk_part formats;        /* after their count */
    tfk_part systems;        /* after their count */
    tfk_part kallsyms;
    tfk_part printk;
    tfk_part processes;
    tfk_part options;        /* from the first type through the closing 0; place and size 0 if there are none */
    tfk_part body;           /* the CPU entries, or the text of a latency file */
} tfk_dat_summary;

/* A CPU's range, as stored. */
typedef struct {
    uint8_t refusal;
    uint64_t offset;
    uint64_t size;
} tfk_cpu_range;

/* The summary of a trace.dat file. */
tfk_dat_summary tfk_dat_read(const uint8_t *file, size_t file_length);

/* CPU i's range; 12 where there is no such CPU, and for a latency file. */
tfk_cpu_range tfk_dat_cpu_range(const uint8_t *file, size_t file_length, size_t i);

#ifdef __cplusplus
}
#endif

#endif
