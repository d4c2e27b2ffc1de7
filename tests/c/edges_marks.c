/* Cuts, joins and pairs of traces with the end mark and without: a cut keeps it, a join has one if either has one. */
#include "answers.h"
#include "calls.h"
#include "check.h"
#include "edges.h"
#include "settings.h"
#include "traces.h"

#include <stdlib.h>
#include <string.h>

enum { FRAME_HEAD = 6, FRAME = FRAME_HEAD + 13 };

#define KEEP(low, high) (tfk_selection){{{(low), (high)}}, 1, 1}

/* Two files, each at the end of its allocation, with the settings: the first arguments of every call about a pair. */
typedef struct {
    tfk_settings settings;
    uint8_t *first;
    size_t first_length;
    uint8_t *second;
    size_t second_length;
} both;

#define ASKED(pair) (pair).settings, (pair).first, (pair).first_length, (pair).second, (pair).second_length

/* Frames from one number up to another, each with a variable of the value 0; then the mark or nothing. */
static made numbered(uint8_t order, uint16_t from, uint16_t to, int marked)
{
    made file = {.order = order};
    PUT(&file, BARE);
    for (uint16_t n = from; n <= to; n++) {
        put_number(&file, n, 2);
        put_number(&file, FRAME - FRAME_HEAD, 4);
        PUT(&file, "V");
        put_number(&file, n, 4);
        put_number(&file, 0, 8);
    }
    fill_to(&file, file.length + (marked ? MARK : 0));
    return file;
}

/* Whether the output starts with this file and is unchanged beyond it. */
static int holds(const uint8_t *out, size_t room, const made *expected)
{
    return memcmp(out, expected->bytes, expected->length) == 0 &&
           all_pattern(out + expected->length, room - expected->length);
}

/* A cut that gives exactly this file: with room that fits and that is longer; with one byte less it is refused. */
static void cut_gives(const made *given, tfk_selection selection, made expected)
{
    tfk_settings settings = settings_of(given->order, SIXTEEN);
    uint8_t *file = exactly(given->bytes, given->length);
    for (size_t room = expected.length; room <= expected.length + 5; room += 5) {
        uint8_t *out = patterned(room);
        CHECK(is_length(tfk_cut(settings, file, given->length, selection, out, room), 0, expected.length));
        CHECK(holds(out, room, &expected));
        free(out);
    }
    cut_refused(settings, file, given->length, selection, expected.length - 1, TFK_NO_ROOM);
    free(file);
}

static void cuts(uint8_t order, int marked)
{
    made file = numbered(order, 1, 3, marked);
    begin(marked ? "cuts of a marked trace" : "cuts of an unmarked trace");
    about = order;
    cut_gives(&file, KEEP(1, 1), numbered(order, 1, 1, marked));
    cut_gives(&file, tfk_opposite(KEEP(1, 1)), numbered(order, 2, 3, marked));
    cut_gives(&file, KEEP(0, 65535), file);
    cut_gives(&file, KEEP(0, 0), numbered(order, 1, 0, marked));
    cut_gives(&file, tfk_opposite(KEEP(0, 0)), file);
    cut_gives(&file, NONE, numbered(order, 1, 0, marked));
    end();
}

/* The pair's frames are those of its two files, marked or not. */
static void pair_gives(both pair, size_t first_frames, size_t frames)
{
    enum { DATA = sizeof(BARE) - 1 + FRAME_HEAD };
    for (size_t n = 0; n < frames; n++) {
        uint8_t trace = n >= first_frames;
        size_t place = DATA + FRAME * (trace ? n - first_frames : n);
        CHECK(is_part(tfk_pair_place(ASKED(pair), n), 0, trace, place, FRAME - FRAME_HEAD));
        CHECK(is_value(tfk_pair_variable(ASKED(pair), n, (uint32_t)n + 1), 0, 0));
    }
    pair_refused(ASKED(pair), frames, TFK_NOT_FOUND);
}

/* A join of so many frames and so many more, each trace marked or not. */
static void joined(uint8_t order, uint16_t first_frames, uint16_t second_frames, int first_marked, int second_marked)
{
    uint16_t frames = (uint16_t)(first_frames + second_frames);
    made first = numbered(order, 1, first_frames, first_marked);
    made second = numbered(order, (uint16_t)(first_frames + 1), frames, second_marked);
    made expected = numbered(order, 1, frames, first_marked || second_marked);
    both pair = {settings_of(order, SIXTEEN), exactly(first.bytes, first.length), first.length,
                 exactly(second.bytes, second.length), second.length};
    for (size_t room = expected.length; room <= expected.length + 5; room += 5) {
        uint8_t *out = patterned(room);
        CHECK(is_length(tfk_join(ASKED(pair), out, room), 0, expected.length));
        CHECK(holds(out, room, &expected));
        free(out);
    }
    join_refused(ASKED(pair), expected.length - 1, TFK_NO_ROOM);
    pair_gives(pair, first_frames, frames);
    free(pair.first);
    free(pair.second);
}

/* All four markings, of traces without frames too: the bare opening changes nothing where it has no mark. */
static void joins(uint8_t order)
{
    begin("joins of marked and unmarked traces");
    for (uint16_t first_frames = 0; first_frames <= 2; first_frames++) {
        for (uint16_t second_frames = 0; second_frames <= 2; second_frames++) {
            for (int markings = 0; markings < 4; markings++) {
                about = 100u * first_frames + 10u * second_frames + (unsigned)markings;
                joined(order, first_frames, second_frames, markings & 1, markings & 2);
            }
        }
    }
    end();
}

void marks(void)
{
    for (uint8_t order = 0; order <= 1; order++) {
        cuts(order, 0);
        cuts(order, 1);
        joins(order);
    }
}
