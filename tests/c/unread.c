/*
 * tfk_frame_place reads the opening, the heads of frames 0 to n and the blocks of frame n. Here every page of a file that holds
 * none of these may not be read, and a call that reads there is at fault. A frame has four pages: its head and a memory block
 * in the first, a second block in the others. The first frame's pages hold the opening too.
 */
#define _DEFAULT_SOURCE
#include "answers.h"
#include "check.h"
#include "settings.h"
#include "traces.h"

#include <setjmp.h>
#include <signal.h>
#include <stdio.h>
#include <stdlib.h>
#include <string.h>
#include <sys/mman.h>

enum { PAGE = 4096, FRAME = 4 * PAGE, FRAMES = LIMIT / FRAME, FRAME_HEAD = 6, MEMORY_HEAD = 11 };

static sigjmp_buf before_the_call;

static void at_fault(int signal)
{
    siglongjmp(before_the_call, signal);
}

/* Where the head and the data of frame n start. */
static size_t head_of(size_t n)
{
    return n == 0 ? sizeof(BARE) - 1 : n * FRAME;
}

static size_t data_of(size_t n)
{
    return head_of(n) + FRAME_HEAD;
}

static uint8_t *demand(void *pages, const char *call)
{
    if (pages == MAP_FAILED) {
        perror(call);
        exit(2);
    }
    return pages;
}

/* So many pages of the file, from this place on, may be read from now on. */
static void show(uint8_t *file, size_t place, size_t pages)
{
    int failed = mprotect(file + place, pages * PAGE, PROT_READ | PROT_WRITE);
    demand(failed ? MAP_FAILED : file, "mprotect");
}

static void put_head(uint8_t *file, uint8_t order, size_t n, size_t size)
{
    made head = {.order = order};
    put_number(&head, 1, 2);
    put_number(&head, size, 4);
    memcpy(file + head_of(n), head.bytes, head.length);
}

/* Memory that fills the file from one place up to another. */
static void put_memory(uint8_t *file, uint8_t order, size_t from, size_t to)
{
    made block = {.order = order};
    PUT(&block, "M");
    put_number(&block, 0, 8);
    put_number(&block, to - from - MEMORY_HEAD, 2);
    memcpy(file + from, block.bytes, block.length);
}

/* A file that may not be read but for the first page of frames 0 to n. */
static uint8_t *headed(uint8_t order, size_t n)
{
    uint8_t *file = demand(mmap(NULL, LIMIT, PROT_NONE, MAP_PRIVATE | MAP_ANONYMOUS, -1, 0), "mmap");
    for (size_t i = 0; i <= n; i++) {
        show(file, i * FRAME, 1);
        put_head(file, order, i, head_of(i + 1) - data_of(i));
        put_memory(file, order, data_of(i), i * FRAME + PAGE);
    }
    memcpy(file, BARE, sizeof(BARE) - 1);
    return file;
}

/* Whether frame n is answered so, without a fault. */
static int answers(uint8_t order, const uint8_t *file, size_t length, size_t n, tfk_frame_part expected)
{
    if (sigsetjmp(before_the_call, 1) != 0) {
        printf("a page was read that holds no part\n");
        return 0;
    }
    tfk_frame_part answer = tfk_frame_place(settings_of(order, SIXTEEN), file, length, n);
    return is_frame_part(answer, expected.refusal, expected.place, expected.length, expected.heads);
}

/* Whether a call that reads the whole file is at fault, as it must be. */
static int whole_faults(uint8_t order, const uint8_t *file, size_t length)
{
    if (sigsetjmp(before_the_call, 1) != 0) {
        return 1;
    }
    tfk_frame_count(settings_of(order, SIXTEEN), file, length);
    return 0;
}

#define NO(number) (tfk_frame_part){.refusal = (number)}

/* All pages of frame n, and of the frames before it the first. */
static void one_frame(uint8_t order, size_t n)
{
    uint8_t *file = headed(order, n);
    size_t second = n * FRAME + PAGE, next = head_of(n + 1);
    tfk_frame_part expected = {.place = data_of(n), .length = next - data_of(n), .heads = n + 1};
    show(file, n * FRAME, FRAME / PAGE);
    put_memory(file, order, second, next);
    begin("the pages of one frame");
    about = n;
    CHECK(whole_faults(order, file, LIMIT));
    CHECK(answers(order, file, LIMIT, n, expected));
    file[second] = '?';
    CHECK(answers(order, file, LIMIT, n, NO(TFK_BAD_LETTER)));
    munmap(file, LIMIT);
    end();
}

/* Where the file ends, or a head is refused, no frame's blocks are read. */
static void heads_alone(uint8_t order)
{
    enum { LAST = 4 };
    uint8_t *file = headed(order, LAST);
    begin("the pages of heads");
    CHECK(whole_faults(order, file, head_of(LAST)));
    CHECK(answers(order, file, head_of(LAST), LAST, NO(TFK_NOT_FOUND)));
    CHECK(answers(order, file, head_of(LAST), SIZE_MAX, NO(TFK_NOT_FOUND)));
    CHECK(answers(order, file, head_of(LAST) + 5, LAST, NO(TFK_SHORT_HEAD)));
    CHECK(answers(order, file, head_of(LAST) + FRAME_HEAD, LAST, NO(TFK_DATA_PAST_FILE)));
    put_head(file, order, 1, LIMIT);
    CHECK(answers(order, file, LIMIT, LAST, NO(TFK_DATA_PAST_FILE)));
    munmap(file, LIMIT);
    end();
}

int main(void)
{
    signal(SIGSEGV, at_fault);
    for (uint8_t order = 0; order <= 1; order++) {
        one_frame(order, 0);
        one_frame(order, 1);
        one_frame(order, FRAMES - 1);
        heads_alone(order);
    }
    return report();
}
