/* The texts of the numbers that calls return. */
#include "tests.h"

static int says(int32_t told, const char *text) {
    return strcmp(mst_error_text(told), text) == 0;
}

/* Whether a call returns this number: -1 to -30 but -27 and -28, and of a proof of a sharded map
 * -100 to -900, where -400 and -900 have the number of a part's test, 1 to 10, taken off. */
static int is_returned(int32_t told) {
    int32_t hundreds = -told / 100, rest = -told % 100;
    if (told > -100)
        return told < 0 && told >= -30 && told != -27 && told != -28;
    if (hundreds == 4 || hundreds == 9)
        return rest >= 1 && rest <= 10;
    return hundreds <= 9 && rest == 0;
}

/* Each number below 0 that a call returns has a text of its own, but that those of the tests of one
 * part share one; and all others share two. */
static void texts(void) {
    static const int32_t others[] = {0,   64,  INT32_MAX, -4 - 1000, INT32_MIN,
                                     -27, -28, -31,       -99,       -1000};
    EXPECT(says(MST_BAD_KEY, "a key has 1 to 32 bytes"));
    EXPECT(says(MST_BUSY, "another pass has the turn"));
    EXPECT(says(-405, "the proof fails S4: the directory's proof fails"));
    EXPECT(says(-910, "the proof fails S9: the shard's proof fails"));
    for (int32_t told = -1; told > -1100; told--) {
        EXPECT(says(told, mst_error_text(-31)) == !is_returned(told));
        EXPECT(!says(told, mst_error_text(0)));
        for (int32_t other = told + 1; other < 0; other++) {
            int shared = told < -100 && other / 100 == told / 100;
            EXPECT(shared || !is_returned(other) || !is_returned(told)
                   || !says(told, mst_error_text(other)));
        }
    }
    for (size_t i = 0; i < sizeof others / sizeof *others; i++)
        EXPECT(says(others[i], mst_error_text(others[i] < 0 ? -31 : 0)));
    EXPECT(strcmp(mst_library_version(), MST_VERSION_TEXT) == 0);
}

int main(void) {
    texts();
    return ended("texts");
}
