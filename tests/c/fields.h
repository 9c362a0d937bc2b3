/* The fields of a plan, one by one, and numbers at which they break or do not. */
#ifndef FIELDS_H
#define FIELDS_H

#include "../../include/pamzolit.h"
#include "check.h"
#include <string.h>

struct field {
    const char *name;
    size_t offset, width, places;
};

#define MEMBER(member) (((struct pamzolit_plan *)0)->member)
#define ONE(member) {#member, offsetof(struct pamzolit_plan, member), sizeof MEMBER(member), 1}
#define MANY(member) {#member, offsetof(struct pamzolit_plan, member), sizeof MEMBER(member)[0], \
                      sizeof MEMBER(member) / sizeof MEMBER(member)[0]}

static const struct field fields[] = {
    ONE(network.nodes), ONE(network.links), MANY(network.a), MANY(network.b), MANY(network.capacity),
    MANY(tree.parent), MANY(tree.weight), MANY(steps.pivot), MANY(steps.side), MANY(steps.value),
    ONE(stack.depth), MANY(stack.link), MANY(stack.capacity), ONE(lightest.node), ONE(lightest.weight),
};
enum { FIELDS = sizeof fields / sizeof fields[0] };

/* the value's lower bytes, as many as the field has */
static inline void set_field(struct pamzolit_plan *plan, const struct field *field, size_t index, uint64_t value)
{
    uint8_t *place = (uint8_t *)plan + field->offset + index * field->width;
    uint8_t byte = (uint8_t)value;
    uint16_t half = (uint16_t)value;
    uint32_t word = (uint32_t)value;
    switch (field->width) {
    case 1: memcpy(place, &byte, 1); break;
    case 2: memcpy(place, &half, 2); break;
    case 4: memcpy(place, &word, 4); break;
    default: memcpy(place, &value, 8);
    }
}

static inline uint64_t telling_number(const struct pamzolit_plan *plan)
{
    const uint64_t numbers[] = {
        0, 1, 2, 62, 63, 64, 65, 127, 128, 255, 256, 257, 65535, 65536, 8000000, 8000001, 2048000000, 2048000001,
        INT32_MAX, (uint64_t)INT32_MAX + 1, UINT32_MAX, (uint64_t)UINT32_MAX + 1, (uint64_t)1 << 63, SIZE_MAX,
        plan->network.nodes - 1, plan->network.nodes, plan->network.nodes + 1,
        plan->network.links - 1, plan->network.links, plan->network.links + 1,
        plan->stack.depth - 1, plan->stack.depth, plan->stack.depth + 1,
        plan->lightest.node - 1, plan->lightest.node, plan->lightest.node + 1,
        plan->lightest.weight - 1, plan->lightest.weight, plan->lightest.weight + 1,
    };
    return numbers[draw(sizeof numbers / sizeof numbers[0])];
}

/* some field, most often at a place below `live`, gets a telling number */
static inline void damage_field(struct pamzolit_plan *plan, uint32_t live)
{
    const struct field *field = &fields[draw(FIELDS)];
    uint32_t places = (uint32_t)field->places, below = live < places && draw(4) ? live : places;
    uint64_t value = telling_number(plan);
    trial.damage = field->name;
    trial.at = draw(below);
    trial.value = value;
    set_field(plan, field, trial.at, value);
}

#endif
