/* trace.dat headers under construction. */
#ifndef DATS_H
#define DATS_H

#include "check.h"
#include "tufakpeni.h"

enum { PAGE = 1024 };

/* A fault of the fields that are fixed or limited; what is 0 stands for what is right. */
typedef struct {
    uint8_t flag;
    uint8_t long_size;
    uint32_t page_size;
    uint64_t header_page_size;
    uint32_t format_count;
    uint32_t system_count;
    uint32_t kallsyms_size;
    uint64_t processes_size;
    uint32_t cpu_count;
} fault;

/* The header up to its CPU count, with all its sections empty. */
made start(uint8_t order, fault given);

/* A header in which no section is empty, up to the entries of its two CPUs; and its summary with them. */
made full_header(uint8_t order);
tfk_dat_summary full_summary(uint8_t order);

#endif
