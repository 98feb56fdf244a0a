/* Ten throws of a die, each on a stream of its own. The same seed and the same streams give the same throws.
 *   links with: zar
 *   prints: 4 1 4 2 1 6 1 4 6 6
 */
#include <inttypes.h>
#include <stdio.h>
#include <zar.h>

int main(void) {
    const char die[] = "face ~ uniform(6); return face + 1;";
    const zar_limits limits = {1024, 0, 1000, 1}; /* of bits, turns, attempts and rounds of a draw */
    int64_t faces[10];
    uint8_t ends[10]; /* how each draw ended: ZAR_VALUE, or why it has no value */
    zar_said said = zar_draws((const uint8_t *)die, sizeof die - 1, 1, 0, &limits, faces, 10, ends, 10); /* seed 1, from stream 0 on */
    if (said.status != ZAR_DONE)
        return said.status;
    for (int k = 0; k < 10; k++) {
        if (ends[k] != ZAR_VALUE)
            return 1;
        printf("%s%" PRId64, k ? " " : "", faces[k]);
    }
    puts("");
    return 0;
}
