/* A program in C, and in C++, makes calls by the header: a small tally and refusals. */
#include "summary.h"
#include <stdio.h>
#include <string.h>

int main(void) {
    const uint32_t tally[3] = {0, 1, 3};
    uint32_t summary[SUMMARY_NUMBERS + 1], bits;
    float average = 4.0f / 65000.0f;
    int good;
    memset(summary, 0xA5, sizeof summary);
    good = order_summary(tally, 3, summary, SUMMARY_NUMBERS - 1) == 2 && summary[0] == 0xA5A5A5A5u;
    good = good && order_summary(tally, 3, summary, SUMMARY_NUMBERS + 1) == 0;
    memcpy(&bits, &average, sizeof bits);
    good = good && summary[SUMMARY_AVERAGE] == bits && summary[SUMMARY_MEDIAN] == 2;
    good = good && summary[SUMMARY_COUNTS] == 0 && summary[SUMMARY_COUNTS + 1] == 1 && summary[SUMMARY_COUNTS + 2] == 3;
    good = good && summary[SUMMARY_THOUSANDS] == 4 && summary[SUMMARY_THOUSANDS + 64] == 0;
    good = good && summary[SUMMARY_NUMBERS] == 0xA5A5A5A5u;
    puts(good ? "a host by the header: the summary of 0, 1, 3" : "DIFFERENCE: a host by the header");
    return good ? 0 : 1;
}
