/* Which of the largest flows is chosen, and what every call replies, on networks of several kinds.
 *
 *     choice                      digests of the flows of a fixed set, which are compared with choice.out
 *     choice all COUNT [SEED]     every reply in full, so that those of two archives can be compared (tests/as_before)
 *
 * The first opens, changes and undoes within the limits, and digests flows alone: no later limit, check or field of a
 * plan moves a digest, only another choice of a flow does. Nothing that is drawn depends on a reply, so a network is
 * walked alike whatever was replied before. All capacities are at most 1,000,000, the highest before document 02, 6. */
#include "files.h"
#include "sink.h"

enum { FIXED = 500 * KINDS };
static const uint64_t SEED = 20260102;

static struct desk desk;
/* as it was opened; what is asked depends on its sizes alone */
static struct pamzolit_network net;
static struct tally tallies[KINDS];

/* ---- questions */

static uint32_t any_capacity(void)
{
    const uint32_t *range = ranges[pick(RANGES)];
    return once_in(4) ? 0 : between(range[0], range[1]);
}

static uint32_t any_demand(void)
{
    uint32_t times = pick(4);
    return once_in(8) ? between(0, 1000000000) : times * any_capacity();
}

/* two nodes, if there are two: often one of the first and one of the last */
static void draw_ends(struct question *q)
{
    uint32_t n = (uint32_t)net.nodes, few = (n + 15) / 16;
    bool far = once_in(2);
    q->s = far ? pick(few) : pick(n);
    q->t = far ? n - 1 - pick(few) : (q->s + 1 + pick(n > 1 ? n - 1 : 1)) % n;
}

/* in order if the network has a link, and two nodes */
static struct question any_question(void)
{
    struct question q = {.places = net.links, .room = PAMZOLIT_FILE_MAX};
    q.link = net.links > 0 ? pick((uint32_t)net.links) : 0;
    q.capacity = any_capacity();
    q.demand = any_demand();
    draw_ends(&q);
    return q;
}

static void add_fault(struct question *q)
{
    switch (pick(10)) {
    case 0: q->t = q->s; break;
    case 1: q->s = net.nodes + pick(3); break;
    case 2: q->t = net.nodes + pick(3); break;
    case 3: q->s = q->t = once_in(2) ? SIZE_MAX : net.nodes; break;
    case 4: q->link = net.links + pick(3); break;
    case 5: q->link = SIZE_MAX - pick(2); break;
    case 6: q->capacity = 8000001 + (once_in(2) ? 0 : pick(4000000000)); break;
    case 7: q->demand = 1000000001 + (once_in(2) ? 0 : pick(3000000000)); break;
    case 8: q->places = once_in(4) ? 0 : net.links + 1; break;
    default: q->room = pick(2 + 3 * (uint32_t)net.links); /* the file has two bytes more, or still more */
    }
}

/* ---- calls */

static void ask_and_tell(enum call call, const struct question *q)
{
    trial.value++;
    uint32_t number = called(call, &desk, q);
    tell_question(call, q);
    tell_refusal(number);
    tell_stored(call, &desk, q, number == PAMZOLIT_ACCEPTED);
}

static void ask_any(enum call call)
{
    struct question q = any_question();
    ask_and_tell(call, &q);
}

static void ask_every_call(const struct question *q)
{
    for (enum call call = 0; call < CALLS; call++)
        ask_and_tell(call, q);
}

static void open_and_tell(const struct file *file)
{
    trial.value++;
    tell("file");
    tell_hex(file->bytes, file->length);
    tell("\nopen");
    tell_refusal(opened(&desk, file->bytes, file->length));
    tell_number(", place ", desk.place);
    tell("\n");
    tell_plan(&desk.plan);
}

static void reset_and_tell(void)
{
    trial.value++;
    reset_window(&desk);
    count_call(true);
    tell("reset");
    tell_window(&desk.window);
    tell("\n");
}

/* into a buffer as long as it must be, or by a byte too short */
static void list_and_tell(const struct file *file)
{
    static uint8_t out[PAMZOLIT_LISTING_MAX];
    bool fits = !once_in(8);
    trial.value++;
    size_t used = pamzolit_listing(file->bytes, file->length, out, fits ? sizeof out : sizeof out - 1);
    MUST(fits ? used <= sizeof out : used == SIZE_MAX);
    count_call(fits);
    tell_number("listing: used ", used);
    tell("\n");
    if (fits)
        tell_bytes(out, used);
}

/* ---- what is asked of a plan */

static void ask_flow(size_t s, size_t t)
{
    struct question q = {.s = s, .t = t, .places = net.links};
    ask_and_tell(FLOW, &q);
}

static void ask_flows(int pairs)
{
    for (; pairs > 0; pairs--) {
        struct question q = any_question();
        ask_flow(q.s, q.t);
        ask_flow(q.t, q.s);
    }
}

static void ask_all_flows(void)
{
    for (size_t s = 0; s < net.nodes; s++)
        for (size_t t = 0; t < net.nodes; t++)
            if (s != t)
                ask_flow(s, t);
}

/* of all pairs where they are few */
static void ask_network_flows(int pairs)
{
    if (net.nodes <= 5)
        ask_all_flows();
    else
        ask_flows(pairs);
}

static void ask_plan(int pairs)
{
    ask_network_flows(pairs);
    for (enum call call = PAIR; call < FLOW; call++)
        ask_any(call);
    ask_any(PAIR);
    ask_any(HEADROOM);
    ask_any(READING);
}

static void ask_any_times(enum call call, uint32_t times)
{
    for (; times > 0; times--)
        ask_any(call);
}

/* some changes and then some undos, at times more than there are changes */
static void change_and_undo(void)
{
    ask_any_times(CHANGE, between(1, 4));
    ask_plan(3);
    ask_any(WRITE);
    ask_any_times(UNDO, pick(4));
    ask_plan(2);
}

/* ---- what is refused */

static struct question faulty_question(void)
{
    struct question q = any_question();
    add_fault(&q);
    if (once_in(2))
        add_fault(&q);
    return q;
}

static void ask_with_faults(void)
{
    struct question q = faulty_question();
    ask_every_call(&q);
}

/* until one more change is refused, if there is a link; other faults come before that, or behind */
static void fill_the_stack(void)
{
    ask_any_times(CHANGE, PAMZOLIT_CHANGES);
    ask_any(PREVIEW);
    for (int i = 0; i < 8; i++) {
        struct question q = faulty_question();
        ask_and_tell(CHANGE, &q);
        ask_and_tell(PREVIEW, &q);
    }
    ask_flows(3);
}

/* a record that is nearly at its limit */
static void read_too_often(void)
{
    desk.window.count = PAMZOLIT_READINGS - 1;
    ask_any_times(READING, 2);
    reset_and_tell();
}

/* Whether no three bytes may be a number above 1,000,000, or stand at the start of a longer one: else the file is one
 * that the highest capacity and the longest number decide about, and these were lower before document 02, 6. */
static bool within_older_limits(const struct file *file)
{
    for (size_t i = 2; i < file->length; i++) {
        uint32_t low = file->bytes[i - 2], middle = file->bytes[i - 1], high = file->bytes[i];
        if (low > 127 && middle > 127 && low % 128 + middle % 128 * 128 + high * 16384 > 1000000)
            return false;
    }
    return true;
}

/* cut short, with a byte more, or with another byte, often near its start: at times it is in order all the same */
static void open_damaged(struct file file)
{
    struct question q = any_question();
    uint32_t length = (uint32_t)file.length, byte = once_in(4) ? 127 : pick(256);
    switch (pick(4)) {
    case 0: file.length = pick(length); break;
    case 1: put_byte(&file, byte); break;
    case 2: file.bytes[pick(length)] = (uint8_t)byte; break;
    default: file.bytes[pick(length < 4 ? 2 : 4)] = (uint8_t)byte;
    }
    if (!within_older_limits(&file))
        return;
    open_and_tell(&file);
    ask_every_call(&q);
}

/* a field of the plan gets another number, which may be in order, and every call is made on that */
static void ask_damaged(void)
{
    static const uint64_t numbers[] = {0, 1, 2, 3, 63, 64, 255, 256, 257, 1000000, 8000001, UINT32_MAX, SIZE_MAX};
    const struct pamzolit_plan plan = desk.plan;
    const struct field *field = &fields[pick(FIELDS)];
    struct question q = any_question();
    uint32_t places = (uint32_t)field->places, live = (uint32_t)net.nodes;
    size_t index = pick(once_in(4) || places < live ? places : live);
    set_field(&desk.plan, field, index, numbers[pick(sizeof numbers / sizeof numbers[0])]);
    tell("damage ");
    tell(field->name);
    tell_number(" ", index);
    tell("\n");
    ask_every_call(&q);
    desk.plan = plan;
}

/* ---- the walk */

/* flows of the plan that was opened, and behind changes and undos */
static void walk_in_order(void)
{
    ask_network_flows(6);
    for (int rounds = 2; rounds > 0; rounds--) {
        ask_any_times(CHANGE, between(1, 4));
        ask_network_flows(3);
        ask_any_times(UNDO, pick(4));
        ask_network_flows(2);
    }
}

static void walk_plan(void)
{
    bool full = once_in(16);
    ask_any(UNDO);
    ask_plan(6);
    change_and_undo();
    ask_damaged();
    change_and_undo();
    ask_with_faults();
    ask_damaged();
    if (full)
        fill_the_stack();
    ask_with_faults();
    if (once_in(4))
        read_too_often();
    ask_any_times(UNDO, full ? PAMZOLIT_CHANGES + 1 : between(1, 12));
    ask_plan(3);
    ask_any(WRITE);
}

static void walk_all_calls(const struct file *file)
{
    reset_and_tell();
    if (once_in(4))
        open_damaged(*file);
    open_and_tell(file);
    walk_plan();
    if (once_in(8))
        list_and_tell(file);
}

static void walk_network(uint64_t seed, size_t number)
{
    seed_network(seed, number);
    net = network_of_kind(number);
    struct file file = file_of(&net);
    trial = (struct trial){kind_names[number % KINDS], "none, network and call", number, 0};
    tell_number("network ", number);
    tell(", ");
    tell(kind_names[number % KINDS]);
    tell("\n");
    if (sink.digests) {
        open_and_tell(&file);
        walk_in_order();
    } else {
        walk_all_calls(&file);
    }
}

static void walk_networks(size_t count, uint64_t seed)
{
    cover_with_noise(&desk, sizeof desk);
    for (size_t kind = 0; kind < KINDS; kind++)
        tallies[kind] = empty_tally();
    for (size_t number = 0; number < count; number++) {
        sink.tally = &tallies[number % KINDS];
        sink.tally->networks++;
        walk_network(seed, number);
        empty_sink();
    }
}

/* ---- what is printed at the end */

static void print_digests(void)
{
    for (size_t kind = 0; kind < KINDS; kind++) {
        const struct tally *x = &tallies[kind];
        printf("%s: %zu networks, %zu flows, %016llx\n", kind_names[kind], x->networks, x->flows,
               (unsigned long long)x->digest);
    }
}

/* beside the replies, and only when all of them are written */
static void print_counts(void)
{
    struct tally sum = {0};
    for (size_t kind = 0; kind < KINDS; kind++) {
        sum.networks += tallies[kind].networks;
        sum.calls += tallies[kind].calls;
        sum.refused += tallies[kind].refused;
        sum.flows += tallies[kind].flows;
    }
    printf("end\n");
    MUST(fflush(stdout) == 0);
    fprintf(stderr, "%zu networks, %zu calls, %zu of them refused, %zu flows\n", sum.networks, sum.calls, sum.refused,
            sum.flows);
}

static uint64_t number_of(const char *text)
{
    char *end;
    uint64_t number = strtoull(text, &end, 10);
    MUST(*text >= '0' && *text <= '9' && *end == 0);
    return number;
}

int main(int argc, char **argv)
{
    sink.digests = argc == 1;
    if (sink.digests) {
        walk_networks(FIXED, SEED);
        print_digests();
    } else {
        MUST((argc == 3 || argc == 4) && strcmp(argv[1], "all") == 0);
        MUST(number_of(argv[2]) > 0);
        walk_networks(number_of(argv[2]), argc == 4 ? number_of(argv[3]) : SEED);
        print_counts();
    }
    return 0;
}
