// Prints tables of the library's times, beside those of LEMON, igraph and a C++ twin, and of the memory that it takes:
// see docs/BENCHMARKS.md.
#include "beyond.h"
#include "memory.h"
#include "timed.h"

// ---- the table of times
// a peer's time, and the ratio to it
static void beside(double us, double peer)
{
    if (peer > 0) printf(" %.1f | %.3f |", peer, us / peer);
    else printf(" - | - |");
}

// the time of a tree, beside both peers; or of a call, beside LEMON's tree
static void tree_row(const Timed &set, const char *what, double us)
{
    printf("| %s: %s | %.1f |", set.name, what, us);
    beside(us, set.each(LEMON)), beside(us, set.each(IGRAPH));
    printf("\n");
}

static void call_row(const Timed &set, const char *what, double us)
{
    printf("| %s: %s | %.2f |", set.name, what, us);
    beside(us, set.each(LEMON));
    printf(" | |\n");
}

static void rows(const Timed &set)
{
    tree_row(set, "opening", set.each(OPENING));
    if (set.meters[TWIN].work) {
        tree_row(set, "the 63 cuts alone", set.cuts());
        tree_row(set, "the 63 cuts alone, C++ twin", set.each(TWIN));
    }
    for (size_t i = 0; i < set.calls.size(); i++) call_row(set, kinds[i].name, set.call(i));
}

// ---- the table of counts
static void count_row(const Timed &set)
{
    Counter::counts = {};
    Counter::Built built;
    for (auto &net : set.nets) Counter::build(Counter::network_of(net), built);
    auto &c = Counter::counts;
    double cuts = c.cuts;
    printf("| %s | %.0f | %.2f | %.2f | %.2f | %.1f |\n", set.name, cuts, c.searches / cuts, c.found / cuts,
           c.sweeps / cuts, c.swept / cuts);
}

// The twin is checked first, on the networks that are timed: where it differs nothing is printed.
static void tables(bool check_only)
{
    Timed full("dense, 256 links", several(20, dense, 64, 256));
    Timed thin("sparse, 93 links", several(10, sparse, 64, 30));
    Timed eight("8 nodes, 256 links", several(10, dense, 8, 256));
    Timed four("4 nodes, 256 links", several(10, dense, 4, 256));
    Timed two("2 nodes, 256 links", several(10, dense, 2, 256));
    Timed top("dense, to 8,000,000", several(20, high, 64, 256));
    printf("%s\n", check_twin({full.nets, thin.nets, eight.nets, four.nets, two.nets, top.nets}).c_str());
    if (check_only) return;
    for (auto set : {&full, &thin, &top}) set->add_cuts();
    for (auto set : {&full, &thin}) set->add_calls();
    std::vector<Net> many(200, longest_refused());
    if (open_all(many) != many.size() * PAMZOLIT_BYTES_FOLLOW) fail("the file to be read is not refused at its end");
    Meter reading{[&many] { return open_all(many); }};
    best_of_three({full.group(), thin.group(), top.group(), eight.group(), four.group(), two.group(), {&reading}});
    printf("\n| | us | LEMON's tree, us | ratio | igraph's tree, us | ratio |\n");
    printf("|---|---|---|---|---|---|\n");
    for (auto set : {&full, &thin, &top, &eight, &four, &two}) rows(*set);
    printf("| reading 1,539 bytes | %.2f | | | | |\n", reading.best / many.size());
    printf("\n| per cut | cuts | searches | of these found a way | sweeps | nodes swept |\n");
    printf("|---|---|---|---|---|---|\n");
    for (auto set : {&full, &thin, &top, &eight, &four, &two}) count_row(*set);
    memory();
}

// lines of nodes, links and microseconds of an opening, for the picture
static void growth()
{
    std::vector<std::vector<Net>> sets;
    for (int n = 8; n <= 64; n += 8)
        for (int m = 32; m <= 256; m += 32) sets.push_back(several(8, dense, n, m));
    std::vector<Meter> meters;
    for (auto &nets : sets) meters.push_back({[&nets] { return open_all(nets); }});
    std::vector<Meter *> group;
    for (auto &meter : meters) group.push_back(&meter);
    best_of_three({group});
    for (size_t i = 0; i < sets.size(); i++)
        printf("%d %zu %.2f\n", sets[i][0].n, sets[i][0].links.size(), meters[i].best / sets[i].size());
}

int main(int argc, char **argv)
{
    std::string what = argc > 1 ? argv[1] : "";
    if (what == "growth") growth();
    else if (what == "beyond") beyond();
    else if (what == "memory") memory();
    else tables(what == "check");
}
