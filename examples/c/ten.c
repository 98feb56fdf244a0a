/* Ten draws of a die that shows an even number, and the exact probability of each.
 *   links with: zar
 *   prints: 4 2 4 2 6 6 2 4 6 6
 *           value 2 mass 1/3
 *           value 4 mass 1/3
 *           value 6 mass 1/3
 */
#include <inttypes.h>
#include <stdio.h>
#include <string.h>
#include <zar.h>

int main(void) {
    const char *die = "face ~ uniform(6); observe face % 2 = 1; return face + 1;";
    const zar_limits limits = {65536, 1000, 1000, 1000}; /* of bits, turns, attempts and rounds of a draw */
    int64_t faces[10];
    uint8_t ends[10], lines[4096];
    zar_said drawn = zar_draws((const uint8_t *)die, strlen(die), 1, 0, &limits, faces, 10, ends, 10); /* seed 1 */
    zar_said weighed = zar_mass((const uint8_t *)die, strlen(die), 30, 0, 0, lines, sizeof lines);     /* 30 turns of a loop */
    if (drawn.status != ZAR_DONE || weighed.status != ZAR_DONE || weighed.length > sizeof lines)
        return 1;
    for (int k = 0; k < 10; k++) {
        if (ends[k] != ZAR_VALUE)
            return 1;
        printf("%" PRId64 "%c", faces[k], k < 9 ? ' ' : '\n');
    }
    fwrite(lines, 1, weighed.length, stdout);
    return 0;
}
