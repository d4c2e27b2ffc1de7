#include "dats.h"

#include <string.h>

enum { PAGE_SIZE_END = 18 };

made start(uint8_t order, fault given)
{
    made file = {order, 0, {0}};
    PUT(&file, "\x17\x08\x44tracing6");
    put_number(&file, 0, 1);
    put_number(&file, given.flag ? given.flag : order, 1);
    put_number(&file, given.long_size ? given.long_size : 8, 1);
    put_number(&file, given.page_size ? given.page_size : PAGE, 4);
    put(&file, "header_page", 12);
    put_number(&file, given.header_page_size, 8);
    put(&file, "header_event", 13);
    put_number(&file, 0, 8);
    put_number(&file, given.format_count, 4);
    put_number(&file, given.system_count, 4);
    put_number(&file, given.kallsyms_size, 4);
    put_number(&file, 0, 4);
    put_number(&file, given.processes_size, 8);
    put_number(&file, given.cpu_count, 4);
    return file;
}

static void sized(made *file, const char *text, size_t width)
{
    put_number(file, strlen(text), width);
    put(file, text, strlen(text));
}

made full_header(uint8_t order)
{
    made file = start(order, (fault){.long_size = 4});
    file.length = PAGE_SIZE_END;
    put(&file, "header_page", 12);
    sized(&file, "page", 8);
    put(&file, "header_event", 13);
    sized(&file, "event", 8);
    put_number(&file, 3, 4);
    sized(&file, "one", 8);
    sized(&file, "", 8);
    sized(&file, "", 8);
    put_number(&file, 1, 4);
    put(&file, "sched", 6);
    put_number(&file, 1, 4);
    sized(&file, "switch", 8);
    sized(&file, "symbols", 4);
    sized(&file, "prints", 4);
    sized(&file, "names", 8);
    put_number(&file, 2, 4);
    put(&file, "options  ", 10);
    put_number(&file, 4, 2);
    sized(&file, "clock", 4);
    put_number(&file, 65535, 2);
    sized(&file, "", 4);
    put_number(&file, 0, 2);
    put(&file, "flyrecord", 10);
    return file;
}

#define PART(at, bytes) {.place = (at), .size = (bytes)}

tfk_dat_summary full_summary(uint8_t order)
{
    return (tfk_dat_summary){
        .order = order, .long_size = 4, .ending = TFK_ENDING_FLYRECORD, .page_size = PAGE, .format_count = 3,
        .system_count = 1, .cpu_count = 2, .header_page = PART(38, 4), .header_event = PART(63, 5),
        .formats = PART(72, 27), .systems = PART(103, 24), .kallsyms = PART(131, 7), .printk = PART(142, 6),
        .processes = PART(156, 5), .options = PART(175, 19), .body = PART(204, 32),
    };
}
