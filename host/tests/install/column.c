/* A column there and back, a refusal and the version, in C99. */
#include <stdio.h>
#include <string.h>
#include <taripomune.h>

#define CHECK(condition)                                              \
    do {                                                              \
        if (!(condition)) {                                           \
            fprintf(stderr, "line %d: not %s\n", __LINE__, #condition); \
            return 1;                                                 \
        }                                                             \
    } while (0)

int main(void) {
    const uint32_t balances[4] = {1250, 0, 730, 2020};
    uint32_t column[4], scratch[4];

    memcpy(column, balances, sizeof column);
    CHECK(tari_interpolate(2, column, 4, scratch, 4).number == TARI_ACCEPTED);
    CHECK(4 * column[0] == 1250 + 730 + 2020);
    CHECK(tari_evaluate(2, column, 4, scratch, 4).number == TARI_ACCEPTED);
    CHECK(memcmp(column, balances, sizeof column) == 0);

    column[2] = 2147483647;
    tari_write_reply refused = tari_evaluate(2, column, 4, scratch, 4);
    CHECK(refused.number == TARI_REFUSED_WORD && refused.position == 2);
    CHECK(column[0] == 1250 && column[2] == 2147483647);

    CHECK(tari_version().value == TARI_VERSION);
    puts("there and back");
    return 0;
}
