/* A loaded die in a game: who first has 30 points wins. Its six comes with 3/8, and each other face with 1/8. The same seed plays the
 * same game, and each player has a seed of his own.
 *   links with: zar
 *   prints: player 1 wins with 32 points after 9 rounds
 */
#include <stdio.h>
#include <stdlib.h>
#include <zar.h>

static const char LOADED[] = "choose { 5: { x ~ uniform(5); face := x + 1; } | 3: { face := 6; } } return face;";
enum { PLAYERS = 2, PACK = 64 };

/* The faces of a player, of which a pack is drawn at a time. */
typedef struct {
    uint64_t seed, thrown;
    int64_t faces[PACK];
    uint8_t ends[PACK];
} player;

static int throw_die(player *p) {
    const zar_limits limits = {1024, 0, 1000, 1};
    size_t at = p->thrown % PACK;
    if (at == 0) {
        zar_said said = zar_draws((const uint8_t *)LOADED, sizeof LOADED - 1, p->seed, p->thrown, &limits, p->faces, PACK, p->ends, PACK);
        if (said.status != ZAR_DONE)
            exit(said.status);
    }
    if (p->ends[at] != ZAR_VALUE) /* a draw of five out of eight is cut off after 1000 attempts */
        exit(1);
    p->thrown++;
    return (int)p->faces[at];
}

int main(void) {
    static player players[PLAYERS] = {{.seed = 1}, {.seed = 2}};
    int points[PLAYERS] = {0};
    for (int round = 1;; round++)
        for (int k = 0; k < PLAYERS; k++) {
            points[k] += throw_die(&players[k]);
            if (points[k] >= 30) {
                printf("player %d wins with %d points after %d rounds\n", k + 1, points[k], round);
                return 0;
            }
        }
}
