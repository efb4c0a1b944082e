/* Names of seven letters, one on a line: `colliding-names COUNT MASK`.
 *
 * Those whose hash has zeros under the mask lie at one place of a map whose hashes begin with the fixed number of the library's
 * hasher; with the mask 0 the first names are taken. Each name is tried in turn, so a mask of 14 bits takes 16,384 trials a name.
 */

/* Of the C library; its headers aren't needed. */
int puts(const char *line);
unsigned long strtoul(const char *text, char **end, int base);

typedef unsigned long long uint64_t;
typedef unsigned int uint32_t;

/* What the hasher begins with at a name's sixteen bytes, and what it multiplies by. */
static const uint64_t START = 0x243f6a8885a308d3u + 16;
static const uint64_t MULTIPLIER = 0x9e3779b97f4a7c15u;

static uint32_t hash_of(const char *letters) {
    uint64_t word = 0;
    for (int at = 6; at >= 0; at--)
        word = word << 8 | (unsigned char)letters[at];
    unsigned __int128 product = (unsigned __int128)(word ^ START) * MULTIPLIER;
    uint64_t folded = (uint64_t)product ^ (uint64_t)(product >> 64);
    return (uint32_t)(folded ^ folded >> 32);
}

int main(int count, char **words) {
    if (count != 3)
        return 2;
    unsigned long wanted = strtoul(words[1], 0, 0);
    uint32_t mask = (uint32_t)strtoul(words[2], 0, 0);
    for (uint64_t number = 0; wanted > 0; number++) {
        char letters[8] = {0};
        uint64_t rest = number;
        for (int at = 0; at < 7; at++, rest /= 36)
            letters[at] = "abcdefghijklmnopqrstuvwxyz0123456789"[rest % 36];
        if ((hash_of(letters) & mask) == 0) {
            puts(letters);
            wanted--;
        }
    }
    return 0;
}
