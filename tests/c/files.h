/* Network files: resort A, random ones, and the file of a network as the format says. */
#ifndef FILES_H
#define FILES_H

#include "../../include/pamzolit.h"
#include "check.h"

/* one byte more than the longest file has */
struct file {
    size_t length;
    uint8_t bytes[PAMZOLIT_FILE_MAX + 1];
};

static const uint8_t resort_a[] = {4, 5, 0, 1, 5, 1, 2, 3, 2, 3, 4, 0, 3, 2, 0, 2, 1};

static inline void put_byte(struct file *file, uint32_t byte)
{
    MUST(file->length < sizeof file->bytes);
    file->bytes[file->length++] = (uint8_t)byte;
}

/* groups of seven bits, the lowest first, the top bit set in all but the last */
static inline void put_number(struct file *file, size_t number)
{
    for (; number >= 128; number /= 128)
        put_byte(file, (uint32_t)(number % 128 + 128));
    put_byte(file, (uint32_t)number);
}

static inline void put_link(struct file *file, uint32_t a, uint32_t b, uint32_t capacity)
{
    put_number(file, a);
    put_number(file, b);
    put_number(file, capacity);
}

static inline struct file file_of(const struct pamzolit_network *network)
{
    struct file file = {0};
    put_number(&file, network->nodes);
    put_number(&file, network->links);
    for (size_t k = 0; k < network->links; k++)
        put_link(&file, network->a[k], network->b[k], network->capacity[k]);
    return file;
}

/* links anywhere, capacities at most `top` */
static inline struct file random_file(uint32_t nodes, uint32_t links, uint32_t top)
{
    struct file file = {0};
    put_number(&file, nodes);
    put_number(&file, links);
    for (uint32_t k = 0; k < links; k++) {
        uint32_t a = draw(nodes);
        uint32_t b = (a + 1 + draw(nodes - 1)) % nodes;
        put_link(&file, a, b, draw(top + 1));
    }
    return file;
}

static inline struct file longest_file(void)
{
    struct file file = {0};
    put_number(&file, PAMZOLIT_NODES);
    put_number(&file, PAMZOLIT_LINKS);
    for (uint32_t k = 0; k < PAMZOLIT_LINKS; k++)
        put_link(&file, k % 63, 63, 8000000 - k);
    MUST(file.length == PAMZOLIT_FILE_MAX);
    return file;
}

#endif
