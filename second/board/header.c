/* The header's numbers for each count of kiosks and of outputs, and the others in a line. */
#include "slipcoacher.h"
#include <stdio.h>

int main(void)
{
    for (unsigned n = 1; n <= SLIP_KIOSKS; n++)
        printf("%u %u %u\n", n, SLIP_HEADER(n), SLIP_ROOMY_FOR(n));
    for (unsigned k = 0; k <= SLIP_SENT; k++)
        printf("%u %u %u\n", k, SLIP_GROUP(k), SLIP_LIST(k));
    printf("%d %d %d %d\n", SLIP_KIOSKS, SLIP_ROUNDS, SLIP_TABLE, SLIP_SENT);
    printf("%d %d %d %d %d\n", SLIP_MOST_HEADER, SLIP_MOST_GROUP, SLIP_AGAIN, SLIP_ROOMY, SLIP_TEXT);
    printf("%zu %zu %zu %zu\n", _Alignof(struct slip_kiosk), _Alignof(struct slip_input), _Alignof(struct slip_reply), _Alignof(uint64_t));
    printf("%s %d\n", SLIP_VERSION, SLIP_RULES);
    return 0;
}
