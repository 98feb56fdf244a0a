/* Tests at random: numbers at the edges come as often as plain ones, and a case is named by the number of its stream, so that the one
 * that fails can be run again alone. The function under test is wrong for two odd numbers.
 *   links with: zar
 *   prints: case 0: middle(7, 2147483647) is not 1073741827
 */
#include <stdio.h>
#include <zar.h>

static const char NUMBER[] = "x ~ uniform(10); y ~ uniform(3); choose { 2: { } | 1: { x := 2147483647 - y; } | 1: { x := y - 2147483647; } } return x;";

static int middle(int a, int b) { return a / 2 + b / 2; }

int main(void) {
    const zar_limits limits = {1024, 0, 1000, 1};
    for (uint64_t number = 0; number < 1000; number++) {
        int64_t x[2];
        uint8_t ends[2];
        zar_said said = zar_draws((const uint8_t *)NUMBER, sizeof NUMBER - 1, 1, 2 * number, &limits, x, 2, ends, 2);
        if (said.status != ZAR_DONE || ends[0] != ZAR_VALUE || ends[1] != ZAR_VALUE)
            return 2;
        int64_t wanted = (x[0] + x[1]) / 2;
        if (middle((int)x[0], (int)x[1]) != wanted) {
            printf("case %d: middle(%d, %d) is not %d\n", (int)number, (int)x[0], (int)x[1], (int)wanted);
            return 0;
        }
    }
    return 1;
}
