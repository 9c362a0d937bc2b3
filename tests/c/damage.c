/* Plans that were written over, and gates' records with anything in them: 19 from every call exactly if the plan is not
 * sound, else answers from what plan and record then hold, and nothing stored but what the header says. With an
 * argument: so many rounds, and not every value of every byte of resort A. */
#include "answers.h"
#include "breaks.h"
#include "fields.h"
#include "shapes.h"

enum { ROUNDS = 4, PLANS = 7, LARGEST = PLANS - 1 };

static struct desk desk;
static struct pamzolit_plan plans[PLANS];
static const char *const names[PLANS] = {
    "resort A", "resort A changed", "one node", "two nodes apart", "twenty nodes", "a row of nodes", "64 nodes",
};
/* how many were tried that are not sound, and how many that are */
static size_t tried[2];

/* ---- the plans */

static void open_plan(size_t i, const uint8_t *file, size_t length)
{
    cover_with_noise(&desk, sizeof desk);
    MUST(opened(&desk, file, length) == 0 && desk.place == 0);
    MUST(sound(&desk.plan));
    plans[i] = desk.plan;
}

static void change_plan(size_t i, int changes, uint32_t top)
{
    uint32_t count, links = (uint32_t)plans[i].network.links;
    for (; changes > 0; changes--) {
        uint32_t link = draw(links);
        MUST(pamzolit_change(&plans[i], link, draw(top + 1), &count) == 0);
    }
    MUST(sound(&plans[i]));
}

/* its tree is the row itself: 63 parents, the longest way that is allowed */
static struct file row_file(void)
{
    struct file file = {0};
    put_number(&file, PAMZOLIT_NODES);
    put_number(&file, PAMZOLIT_NODES - 1);
    for (uint32_t i = 1; i < PAMZOLIT_NODES; i++)
        put_link(&file, i - 1, i, i);
    return file;
}

static void make_plans(void)
{
    struct file twenty = random_file(20, 50, 1000), row = row_file(), full = random_file(64, 256, 8000000);
    open_plan(0, resort_a, sizeof resort_a);
    open_plan(1, resort_a, sizeof resort_a);
    open_plan(2, (const uint8_t[]){1, 0}, 2);
    open_plan(3, (const uint8_t[]){2, 0}, 2);
    open_plan(4, twenty.bytes, twenty.length);
    open_plan(5, row.bytes, row.length);
    open_plan(LARGEST, full.bytes, full.length);
    change_plan(1, 3, 9);
    change_plan(4, 10, 1000);
    change_plan(LARGEST, 64, 8000000);
    MUST(climb_from(&plans[5].tree, 63).length == 64);
}

/* ---- the plan on the desk, asked all that there is */

static size_t at_most(size_t x, size_t limit)
{
    return x < limit ? x : limit;
}

static bool seldom(void)
{
    return draw(8) == 0;
}

/* often one that leaves about as much as a window shows, if the lightest edge is on the path */
static uint32_t random_demand(const struct pamzolit_plan *plan)
{
    if (draw(2))
        return plan->lightest.weight + 120 - draw(1240);
    return seldom() ? (uint32_t)noise() : up_to(1000000000);
}

/* arguments that are mostly in order */
static struct question random_question(const struct pamzolit_plan *plan)
{
    uint32_t n = (uint32_t)at_most(plan->network.nodes, PAMZOLIT_NODES);
    uint32_t m = (uint32_t)at_most(plan->network.links, PAMZOLIT_LINKS);
    struct question q = {.places = m, .room = PAMZOLIT_FILE_MAX};
    q.link = seldom() ? noise() : draw(m + 1);
    q.s = seldom() ? noise() : draw(n + 1);
    q.t = seldom() ? q.s : draw(n + 1);
    q.capacity = seldom() ? (uint32_t)noise() : up_to(8000000);
    q.capacity += seldom();
    q.demand = random_demand(plan) + seldom();
    if (seldom())
        q.places = draw(PAMZOLIT_LINKS + 2);
    if (seldom())
        q.room = draw(PAMZOLIT_FILE_MAX + 2);
    return q;
}

static void try_desk(void)
{
    struct question q = random_question(&desk.plan);
    desk.window = random_window();
    tried[must_answer_all(&desk, &q)]++;
}

/* ---- the kinds of damage */

static void one_byte(size_t i, size_t at, uint8_t more)
{
    uint8_t *byte = (uint8_t *)&desk.plan + at;
    desk.plan = plans[i];
    *byte = (uint8_t)(*byte + more);
    trial = (struct trial){names[i], "a byte", at, *byte};
    try_desk();
}

static void every_value(size_t i)
{
    for (size_t at = 0; at < sizeof desk.plan; at++)
        for (int more = 1; more < 256; more++)
            one_byte(i, at, (uint8_t)more);
}

static void every_byte(size_t i, int values)
{
    for (size_t at = 0; at < sizeof desk.plan; at++)
        for (int k = 0; k < values; k++)
            one_byte(i, at, (uint8_t)(1 + draw(255)));
}

static void some_fields(size_t i)
{
    uint32_t live = (uint32_t)plans[i].network.nodes;
    desk.plan = plans[i];
    trial.plan = names[i];
    for (uint32_t k = 1 + draw(3); k > 0; k--)
        damage_field(&desk.plan, live);
    try_desk();
}

static void only_noise(void)
{
    trial = (struct trial){"noise", "all", 0, 0};
    cover_with_noise(&desk.plan, sizeof desk.plan);
    try_desk();
    cover_with_noise(&desk.plan, sizeof desk.plan);
    desk.plan.network.nodes = 1 + draw(PAMZOLIT_NODES);
    desk.plan.network.links = draw(PAMZOLIT_LINKS + 1);
    desk.plan.stack.depth = draw(PAMZOLIT_CHANGES + 1);
    try_desk();
}

/* a random plan of the right shape, and then one field of it written over */
static void only_shape(void)
{
    trial = (struct trial){"a random shape", "none", 0, 0};
    desk.plan = random_shape();
    MUST(sound(&desk.plan));
    try_desk();
    damage_field(&desk.plan, (uint32_t)desk.plan.network.nodes);
    try_desk();
}

/* Damage that keeps the shape is not seen: the tree answers, whatever its network has become, and in a preview the
 * steps that are kept. Where a weight becomes the lightest, the shape is kept only if the lightest edge is written over
 * too. */
static void keeps_the_shape(void)
{
    trial = (struct trial){names[0], "one that keeps the shape", 0, 0};
    struct question q = {.t = 1, .demand = 1};
    desk.plan = plans[0];
    desk.plan.network.capacity[0] = 0;
    MUST(called(HEADROOM, &desk, &q) == 0 && desk.headroom.value == 7);
    desk.plan.tree.weight[1] = 2048000000;
    MUST(called(HEADROOM, &desk, &q) == 0 && desk.headroom.value == 2047999999);
    MUST(memcmp(desk.headroom.text, " 204799999.9", 12) == 0);
    desk.window = (struct pamzolit_window){0, INT32_MIN, 0};
    MUST(called(READING, &desk, &q) == 0 && desk.window.lowest == 2047999999 && desk.window.count == 1);
    MUST(memcmp(desk.shown.text, "HIGH", 4) == 0);
    /* link 0 to the capacity that it has now: every step is kept, that of node 1 with its value of 8 */
    MUST(called(PREVIEW, &desk, &q) == 0 && desk.pair.weight == 8 && desk.count == 0);
    desk.plan.tree.weight[1] = 0;
    MUST(called(HEADROOM, &desk, &q) == 19 && called(READING, &desk, &q) == 19);
    desk.plan.lightest = (struct pamzolit_edge){.node = 1};
    MUST(called(HEADROOM, &desk, &q) == 0 && desk.headroom.value == -1);
    MUST(called(READING, &desk, &q) == 0 && desk.window.lowest == -1 && desk.window.count == 2);
}

int main(int argc, char **argv)
{
    int rounds = argc > 1 ? atoi(argv[1]) : ROUNDS;
    make_plans();
    keeps_the_shape();
    for (size_t i = 0; i < PLANS; i++) {
        trial.plan = names[i];
        break_all(&desk, &plans[i]);
        every_byte(i, rounds);
        for (int k = 0; k < 1000 * rounds; k++)
            some_fields(i);
    }
    if (argc < 2)
        every_value(0);
    for (int k = 0; k < 1000 * rounds; k++)
        only_noise(), only_shape();
    must_have_met_all_rows(30);
    must_have_met_all_looks(30);
    MUST(tried[false] > 10000 * (size_t)rounds && tried[true] > 3000 * (size_t)rounds);
    tried[false] += broken;
    size_t all = tried[false] + tried[true];
    printf("damage: %zu plans, %zu refused with 19, the others keep the shape\n", all, tried[false]);
    return 0;
}
