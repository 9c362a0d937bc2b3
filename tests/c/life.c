/* Resort A's life as a plan in C's memory: opened, asked, previewed, changed, undone, read by a gate, written, copied,
 * refused. The lines that it prints are compared with life.out, which an independent model made. A flow is not printed,
 * since its choice is free: it is checked to be lawful, and its total is printed. */
#include "blocks.h"
#include "desk.h"
#include "files.h"
#include "flows.h"
#include "openings.h"
#include "show.h"

static struct desk desk;
/* resort A as it was opened */
static struct pamzolit_plan first;

static void open_resort_a(void)
{
    cover_with_noise(&desk, sizeof desk);
    MUST(opened(&desk, resort_a, sizeof resort_a) == 0);
    printf("open resort A: place %zu\n", desk.place);
    first = desk.plan;
}

/* ---- asking */

static void ask_headrooms(size_t s, size_t t, const uint32_t *demands, size_t count)
{
    for (size_t i = 0; i < count; i++) {
        struct question q = {.s = s, .t = t, .demand = demands[i]};
        MUST(called(HEADROOM, &desk, &q) == 0);
        show_question(HEADROOM, &q);
        printf(": [%.12s] %d\n", (const char *)desk.headroom.text, (int)desk.headroom.value);
    }
}

static void ask_pair(size_t s, size_t t)
{
    const struct pamzolit_network *net = &desk.plan.network;
    struct question q = {.s = s, .t = t, .places = net->links};
    MUST(called(PAIR, &desk, &q) == 0);
    MUST(called(FLOW, &desk, &q) == 0);
    MUST(lawful(net, desk.flow, s, t) && largest(net, desk.flow, s, t));
    MUST(leaves(net, desk.flow, s) + leaves(net, desk.flow, t) == 0);
    show_question(PAIR, &q);
    printf(": weight %u, node %zu, side %llu of %zu; flow %lld\n", (unsigned)desk.pair.weight, desk.pair.node,
           (unsigned long long)desk.pair.side, desk.pair.size, (long long)leaves(net, desk.flow, s));
}

static void ask_pairs(void)
{
    for (size_t s = 0; s < desk.plan.network.nodes; s++)
        for (size_t t = 0; t < desk.plan.network.nodes; t++)
            if (s != t)
                ask_pair(s, t);
}

/* the pair as it would be under that capacity, and the steps that would not be kept; the plan is left */
static void preview(size_t link, uint32_t capacity, size_t s, size_t t)
{
    struct question q = {.link = link, .capacity = capacity, .s = s, .t = t};
    MUST(called(PREVIEW, &desk, &q) == 0);
    show_question(PREVIEW, &q);
    printf(": weight %u, node %zu, side %llu of %zu; %u not kept\n", (unsigned)desk.pair.weight, desk.pair.node,
           (unsigned long long)desk.pair.side, desk.pair.size, (unsigned)desk.count);
}

static void preview_pairs(size_t link, uint32_t capacity)
{
    for (size_t s = 0; s < desk.plan.network.nodes; s++)
        for (size_t t = 0; t < desk.plan.network.nodes; t++)
            if (s != t)
                preview(link, capacity, s, t);
}

/* ---- changing */

/* the steps not kept */
static uint32_t change(size_t link, uint32_t capacity)
{
    struct question q = {.link = link, .capacity = capacity};
    MUST(called(CHANGE, &desk, &q) == 0);
    return desk.count;
}

static uint32_t undo(void)
{
    MUST(called(UNDO, &desk, &(struct question){0}) == 0);
    return desk.count;
}

static void change_and_undo(size_t link, uint32_t capacity)
{
    desk.plan = first;
    printf("change link %zu to %u: %u not kept\n", link, (unsigned)capacity, (unsigned)change(link, capacity));
    show_plan(&desk.plan);
    ask_pairs();
    preview(link, first.network.capacity[link], 3, 1); /* what undoing it gives */
    printf("undo: %u not kept\n", (unsigned)undo());
    show_tree(&desk.plan);
    preview(link, capacity, 3, 1);
    MUST(same_plan(&desk.plan, &first));
}

/* ---- refusals */

static void refuse(enum call call, struct question q)
{
    show_question(call, &q);
    printf(": refused %u\n", (unsigned)called(call, &desk, &q));
}

/* s and t are a preview's: it is refused for its change before it is for its pair */
static void refuse_changes(enum call call, size_t s, size_t t)
{
    refuse(call, (struct question){.link = 5, .capacity = 1, .s = s, .t = t});
    refuse(call, (struct question){.link = SIZE_MAX, .capacity = 8000001, .s = s, .t = t});
    refuse(call, (struct question){.link = 4, .capacity = 8000001, .s = s, .t = t});
    refuse(call, (struct question){.link = 0, .capacity = UINT32_MAX, .s = s, .t = t});
}

static void refuse_pairs(enum call call)
{
    struct question q = {.places = 4, .demand = 1000000001, .link = 1, .capacity = 1};
    static const size_t ends[][2] = {{0, 4}, {4, 0}, {4, 4}, {SIZE_MAX, 1}, {1, SIZE_MAX}, {2, 2}, {0, 0}};
    for (size_t i = 0; i < sizeof ends / sizeof ends[0]; i++) {
        q.s = ends[i][0], q.t = ends[i][1];
        refuse(call, q);
    }
}

static void refuse_calls(void)
{
    desk.plan = first;
    refuse_changes(CHANGE, 0, 0);
    preview(1, 1, 3, 1);
    refuse(UNDO, (struct question){0});
    refuse_pairs(PAIR);
    refuse_changes(PREVIEW, 3, 1);
    refuse_changes(PREVIEW, 4, 4);
    refuse_changes(PREVIEW, 2, 2);
    refuse_pairs(PREVIEW);
    refuse_pairs(FLOW);
    refuse_pairs(HEADROOM);
    refuse(FLOW, (struct question){.s = 1, .t = 3, .places = 4});
    refuse(FLOW, (struct question){.s = 1, .t = 3, .places = 6});
    refuse(FLOW, (struct question){.s = 1, .t = 3, .places = 0});
    refuse(HEADROOM, (struct question){.s = 1, .t = 3, .demand = 1000000001});
    refuse(HEADROOM, (struct question){.s = 1, .t = 3, .demand = UINT32_MAX});
    refuse(WRITE, (struct question){.room = 16});
    refuse(WRITE, (struct question){.room = 0});
    MUST(same_plan(&desk.plan, &first));
}

/* ---- the gate window */

static void reset(void)
{
    reset_window(&desk);
    printf("reset: ");
    show_window(&desk.window);
}

static void read_window(size_t s, size_t t, uint32_t demand)
{
    struct question q = {.s = s, .t = t, .demand = demand};
    uint32_t number = called(READING, &desk, &q);
    show_question(READING, &q);
    if (number != PAMZOLIT_ACCEPTED) {
        printf(": refused %u\n", (unsigned)number);
    } else {
        printf(": [%.4s] ", (const char *)desk.shown.text);
        show_window(&desk.window);
    }
}

static void read_windows(size_t s, size_t t, const uint32_t *demands, size_t count)
{
    for (size_t i = 0; i < count; i++)
        read_window(s, t, demands[i]);
}

/* one list: resets, and readings of a plan that changes in between, refused ones among them */
static void read_through_changes(void)
{
    static const uint32_t some[] = {0, 11, 6, 7, 5}, falling[] = {105, 106, 107, 1000000000, 0};
    static const uint32_t rising[] = {7999997, 7999906, 7999905, 7999006, 7999005, 0, UINT32_MAX};
    desk.plan = first;
    reset();
    reset();
    read_windows(1, 3, some, 5);
    change(2, 0);
    read_windows(3, 1, some, 5);
    read_window(1, 3, 1000000001);
    undo();
    read_windows(1, 3, falling, 5);
    reset();
    refuse_pairs(READING);
    change(4, 8000000);
    read_windows(0, 2, rising, 7);
    read_window(0, 1, 4);
    undo();
    MUST(same_plan(&desk.plan, &first));
}

/* records that no reset made, some of them at the limit, which a headroom's refusals come before */
static void read_any_record(void)
{
    static const struct pamzolit_window records[] = {
        {1, INT32_MIN, 0}, {INT32_MIN, INT32_MAX, 0}, {INT32_MAX, INT32_MIN, 1}, {0, INT32_MAX, 1},
        {3, -6, 999998}, {3, 2, 1000000}, {3, 2, 1000001}, {INT32_MIN, INT32_MAX, UINT32_MAX},
    };
    static const uint32_t demands[] = {1000000001, 11, 13, 5};
    for (size_t i = 0; i < sizeof records / sizeof records[0]; i++) {
        desk.window = records[i];
        printf("record: ");
        show_window(&desk.window);
        read_window(0, 4, 1000000001);
        read_window(2, 2, 1000000001);
        read_windows(1, 3, demands, 4);
    }
    MUST(same_plan(&desk.plan, &first));
}

/* ---- the whole stack */

static struct pamzolit_plan before[PAMZOLIT_CHANGES];

static void fill_the_stack(void)
{
    desk.plan = first;
    printf("changes, not kept:");
    for (uint32_t k = 0; k < PAMZOLIT_CHANGES; k++) {
        before[k] = desk.plan;
        printf(" %u", (unsigned)change(k * 3 % 5, k * 7 % 12));
    }
    printf("\n");
    show_plan(&desk.plan);
    ask_pairs();
    refuse(CHANGE, (struct question){.link = 0, .capacity = 1});
    refuse_changes(CHANGE, 0, 0);
    refuse_pairs(PREVIEW);
    refuse(PREVIEW, (struct question){.link = 0, .capacity = 1, .s = 3, .t = 1});
    refuse_changes(PREVIEW, 3, 1);
}

/* with one change less on the stack the last one can be shown, and then made */
static void preview_the_last_change(void)
{
    struct pamzolit_plan full = desk.plan;
    undo();
    preview(4, 9, 2, 0);
    change(4, 9);
    MUST(same_plan(&desk.plan, &full));
}

static void empty_the_stack(void)
{
    printf("undos, not kept:");
    for (int k = PAMZOLIT_CHANGES - 1; k >= 0; k--) {
        printf(" %u", (unsigned)undo());
        MUST(same_plan(&desk.plan, &before[k]));
    }
    printf("\n");
    MUST(same_plan(&desk.plan, &first));
    refuse(UNDO, (struct question){0});
}

/* ---- files and copies */

static void write_file(size_t room)
{
    struct question q = {.room = room};
    MUST(called(WRITE, &desk, &q) == 0);
    show_question(WRITE, &q);
    show_bytes(desk.file, desk.used);
    printf("\n");
}

/* the file of a changed plan opens as that plan without its stack, byte for byte */
static void write_and_open(void)
{
    desk.plan = first;
    write_file(sizeof resort_a);
    MUST(desk.used == sizeof resort_a && memcmp(desk.file, resort_a, desk.used) == 0);
    change(1, 8000000);
    change(3, 130);
    change(3, 0);
    write_file(PAMZOLIT_FILE_MAX);
    write_file(desk.used);
    struct pamzolit_plan changed = desk.plan;
    MUST(opened(&desk, desk.file, desk.used) == 0);
    show_plan(&desk.plan);
    memset(&changed.stack, 0, sizeof changed.stack);
    MUST(same_plan(&desk.plan, &changed));
}

static void copy_and_change(void)
{
    desk.plan = first;
    struct pamzolit_plan copy = first;
    uint32_t count;
    MUST(pamzolit_change(&copy, 0, 0, &count) == 0);
    MUST(same_plan(&desk.plan, &first) && !same_plan(&copy, &first));
    change(2, 0);
    MUST(copy.stack.depth == 1 && copy.stack.link[0] == 0 && copy.network.capacity[2] == 4);
    undo();
    MUST(pamzolit_undo(&copy, &count) == 0);
    MUST(same_plan(&desk.plan, &first) && same_plan(&copy, &first));
}

/* ---- the ends of weights and headrooms */

/* two nodes with links of the highest capacity between them */
static struct file two_nodes(uint32_t links)
{
    struct file file = {0};
    put_number(&file, 2);
    put_number(&file, links);
    for (; links > 0; links--)
        put_link(&file, 0, 1, 8000000);
    return file;
}

static void preview_and_change(size_t link, uint32_t capacity)
{
    struct pamzolit_plan plan = desk.plan;
    preview(link, capacity, 1, 0);
    printf("change link %zu to %u: %u not kept\n", link, (unsigned)capacity, (unsigned)change(link, capacity));
    ask_pairs();
    printf("undo: %u not kept\n", (unsigned)undo());
    show_tree(&desk.plan);
    MUST(same_plan(&desk.plan, &plan));
}

static void ask_two_nodes(uint32_t links)
{
    static const uint32_t demands[] = {0, 1, 999999999, 1000000000}, booked[] = {0, 1000000000, 1000000001};
    struct file file = two_nodes(links);
    MUST(opened(&desk, file.bytes, file.length) == 0);
    printf("two nodes and %u links\n", (unsigned)links);
    show_tree(&desk.plan);
    ask_pairs();
    ask_headrooms(1, 0, demands, 4);
    reset();
    read_windows(0, 1, booked, 3);
}

/* the highest weight, of all links between the same two nodes, and the lowest, of no link */
static void ask_at_the_ends(void)
{
    ask_two_nodes(PAMZOLIT_LINKS);
    MUST(desk.plan.lightest.weight == 2048000000);
    preview_and_change(255, 0);
    preview_and_change(0, 7999999);
    ask_two_nodes(0);
}

/* ---- the listing */

static void list(const uint8_t *file, size_t length)
{
    static uint8_t out[PAMZOLIT_LISTING_MAX + 1], was[sizeof out];
    cover_with_noise(out, sizeof out);
    memcpy(was, out, sizeof out);
    MUST(pamzolit_listing(file, length, out, PAMZOLIT_LISTING_MAX - 1) == SIZE_MAX);
    MUST(memcmp(out, was, sizeof out) == 0);
    size_t used = pamzolit_listing(file, length, out, PAMZOLIT_LISTING_MAX);
    MUST(used <= PAMZOLIT_LISTING_MAX && memcmp(out + used, was + used, sizeof out - used) == 0);
    printf("listing of %zu bytes\n%.*s", used, (int)used, (const char *)out);
}

int main(void)
{
    static const uint32_t demands[] = {0, 5, 6, 7, 11, 16, 106, 1000000000};
    open_resort_a();
    show_plan(&desk.plan);
    ask_headrooms(1, 3, demands, 8);
    ask_pairs();
    preview_pairs(1, 1);
    preview_pairs(3, 4);
    change_and_undo(1, 1);
    change_and_undo(3, 4);
    change_and_undo(0, 5);
    change_and_undo(2, 0);
    change_and_undo(4, 8000000);
    refuse_calls();
    read_through_changes();
    read_any_record();
    fill_the_stack();
    preview_the_last_change();
    empty_the_stack();
    write_and_open();
    copy_and_change();
    ask_at_the_ends();
    try_openings(&desk);
    list(resort_a, sizeof resort_a);
    list(resort_a, 4);
    call_all_in_blocks();
    return 0;
}
