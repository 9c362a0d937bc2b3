/* Every call with each thing that is lent to it in a heap block of its own, no byte longer than the call may use: what
 * is read or written beside it is seen by valgrind. */
#ifndef BLOCKS_H
#define BLOCKS_H

#include "files.h"
#include "flows.h"
#include "windows.h"

struct blocks {
    struct pamzolit_plan *plan;
    uint8_t *file, *out;
    size_t *place, *used;
    uint32_t *count;
    struct pamzolit_pair_reply *pair;
    struct pamzolit_headroom_reply *headroom;
    struct pamzolit_window *window;
    struct pamzolit_window_reply *shown;
    int32_t *flow;
};

static inline void *block(size_t length)
{
    void *start = malloc(length);
    MUST(start != NULL);
    return start;
}

static inline struct blocks lend_blocks(const struct file *file, size_t links)
{
    struct blocks lent = {
        block(sizeof *lent.plan), block(file->length), block(file->length), block(sizeof *lent.place),
        block(sizeof *lent.used), block(sizeof *lent.count), block(sizeof *lent.pair), block(sizeof *lent.headroom),
        block(sizeof *lent.window), block(sizeof *lent.shown), block(links * sizeof *lent.flow),
    };
    for (size_t i = 0; i < file->length; i++)
        lent.file[i] = file->bytes[i];
    return lent;
}

static inline void free_blocks(struct blocks *lent)
{
    void *all[] = {lent->plan, lent->file, lent->out, lent->place, lent->used, lent->count, lent->pair, lent->headroom,
                   lent->window, lent->shown, lent->flow};
    for (size_t i = 0; i < sizeof all / sizeof all[0]; i++)
        free(all[i]);
}

static inline void call_in_blocks(const struct file *file, size_t links)
{
    struct blocks lent = lend_blocks(file, links);
    struct pamzolit_plan *plan = lent.plan;
    MUST(pamzolit_open(lent.file, file->length, plan, lent.place) == 0 && *lent.place == 0);
    MUST(plan->network.links == links);
    MUST(pamzolit_preview(plan, 0, 1, 1, 0, lent.pair, lent.count) == 0 && *lent.count < plan->network.nodes);
    MUST(lent.pair->side & 2);
    MUST(pamzolit_change(plan, 0, 1, lent.count) == 0 && *lent.count < plan->network.nodes);
    MUST(pamzolit_undo(plan, lent.count) == 0 && *lent.count < plan->network.nodes);
    MUST(pamzolit_pair(plan, 1, 0, lent.pair) == 0 && lent.pair->side & 2);
    MUST(pamzolit_headroom(plan, 1, 0, 0, lent.headroom) == 0);
    MUST(lent.headroom->value == (int32_t)lent.pair->weight);
    struct pamzolit_window window = {lent.headroom->value, lent.headroom->value, 1};
    struct pamzolit_window_reply shown = shown_of(lent.headroom->value);
    pamzolit_reset(lent.window);
    MUST(pamzolit_reading(lent.window, plan, 1, 0, 0, lent.shown) == 0 && same_window(lent.window, &window));
    MUST(memcmp(lent.shown, &shown, sizeof shown) == 0);
    MUST(pamzolit_flow(plan, 1, 0, lent.flow, links) == 0);
    MUST(lawful(&plan->network, lent.flow, 1, 0) && leaves(&plan->network, lent.flow, 1) == lent.pair->weight);
    MUST(pamzolit_write(plan, lent.out, file->length, lent.used) == 0 && *lent.used == file->length);
    for (size_t i = 0; i < file->length; i++)
        MUST(lent.out[i] == file->bytes[i]);
    free_blocks(&lent);
}

static inline void call_all_in_blocks(void)
{
    struct file small = random_file(4, 5, 9), longest = longest_file();
    call_in_blocks(&small, 5);
    call_in_blocks(&longest, PAMZOLIT_LINKS);
}

#endif
