/* A gate's evening: the window between nodes 1 and 3 of resort A is reset when the gate opens, and read while bookings
 * rise and fall and a link fails and is repaired. Bookings, the lowest and the last are tenths of a megabit per second,
 * the window shows megabits. */
#include "../include/pamzolit.h"
#include <stdio.h>

static struct pamzolit_plan plan;
static struct pamzolit_window window;

static void read_at(const char *time, uint32_t booked)
{
    struct pamzolit_window_reply shown;
    uint32_t number = pamzolit_reading(&window, &plan, 1, 3, booked, &shown);
    printf("%s booked %10u: [%.4s] ", time, (unsigned)booked, (const char *)shown.text);
    if (number == PAMZOLIT_ACCEPTED)
        printf("lowest %d\n", (int)window.lowest);
    else
        printf("refused %u\n", (unsigned)number);
}

int main(void)
{
    static const uint8_t resort_a[] = {4, 5, 0, 1, 5, 1, 2, 3, 2, 3, 4, 0, 3, 2, 0, 2, 1};
    size_t place;
    uint32_t steps;
    if (pamzolit_open(resort_a, sizeof resort_a, &plan, &place) != PAMZOLIT_ACCEPTED)
        return 1;
    pamzolit_reset(&window);
    printf("16:00 the gate opens\n");
    read_at("16:05", 1);
    read_at("17:00", 3);
    read_at("18:00", 5);
    if (pamzolit_change(&plan, 2, 0, &steps) != PAMZOLIT_ACCEPTED)
        return 1;
    printf("18:20 link 2 fails\n");
    read_at("18:30", 5);
    read_at("18:40", 2000000000); /* mistyped, and refused */
    read_at("18:41", 4);
    if (pamzolit_undo(&plan, &steps) != PAMZOLIT_ACCEPTED)
        return 1;
    printf("18:50 link 2 is repaired\n");
    read_at("19:00", 6);
    read_at("20:00", 4);
    read_at("21:30", 2);
    printf("22:00 the gate closes: %u readings, lowest %d, last %d\n", (unsigned)window.count, (int)window.lowest,
           (int)window.last);
    return 0;
}
