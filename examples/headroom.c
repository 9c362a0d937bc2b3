/* Prints headrooms, as the gate shows them: the limit between two nodes of resort A less the booked traffic. The plan
 * is opened once, and then asked as often as there is a demand. */
#include "../include/pamzolit.h"
#include <stdio.h>

int main(void)
{
    static const uint8_t resort_a[] = {4, 5, 0, 1, 5, 1, 2, 3, 2, 3, 4, 0, 3, 2, 0, 2, 1};
    static const uint8_t damaged[] = {4, 5, 0, 1};
    static const uint32_t demands[] = {0, 6, 11, 106, 1000000001};
    struct pamzolit_plan plan;
    struct pamzolit_headroom_reply left;
    size_t place;
    if (pamzolit_open(resort_a, sizeof resort_a, &plan, &place) != PAMZOLIT_ACCEPTED)
        return 1;
    for (size_t i = 0; i < sizeof demands / sizeof demands[0]; i++) {
        uint32_t number = pamzolit_headroom(&plan, 1, 3, demands[i], &left);
        printf("demand %10u: [%.12s] %d tenths, number %u\n", (unsigned)demands[i], (const char *)left.text,
               (int)left.value, (unsigned)number);
    }
    uint32_t number = pamzolit_open(damaged, sizeof damaged, &plan, &place);
    printf("damaged file: refused %u %zu\n", (unsigned)number, place);
    return 0;
}
