/* An estimate by a million runs: how far two dice are apart on average. The exact mean is 35/18, which is 1.9444.
 *   links with: zar m
 *   prints: mean 1.9454, standard error 0.0014
 */
#include <math.h>
#include <stdio.h>
#include <zar.h>

static const char TEXT[] = "a ~ uniform(6); b ~ uniform(6); if a < b { apart := b - a; } else { apart := a - b; } return apart;";
enum { RUNS = 1000000, PART = 10000 };

int main(void) {
    const zar_limits limits = {1024, 100, 100, 100};
    static int64_t values[PART];
    static uint8_t ends[PART];
    double sum = 0, squares = 0;
    for (uint64_t first = 0; first < RUNS; first += PART) {
        zar_said said = zar_draws((const uint8_t *)TEXT, sizeof TEXT - 1, 1, first, &limits, values, PART, ends, PART);
        if (said.status != ZAR_DONE)
            return said.status;
        for (int k = 0; k < PART; k++) {
            if (ends[k] != ZAR_VALUE)
                return 1;
            sum += (double)values[k];
            squares += (double)(values[k] * values[k]);
        }
    }
    double mean = sum / RUNS;
    printf("mean %.4f, standard error %.4f\n", mean, sqrt((squares / RUNS - mean * mean) / RUNS));
    return 0;
}
