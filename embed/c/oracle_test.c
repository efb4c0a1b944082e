/* Scripts and journals by dine_oracle.h, beside the arbiter's calls in one program. */
#include "../dine.h"
#include "../dine_oracle.h"

#include <stdio.h>
#include <stdlib.h>
#include <string.h>

#define CHECK(holds)                                                       \
    do {                                                                   \
        checks++;                                                          \
        if (!(holds)) {                                                    \
            fprintf(stderr, "%s:%d: %s\n", __FILE__, __LINE__, #holds);    \
            exit(1);                                                       \
        }                                                                  \
    } while (0)

static unsigned checks;

static bool is_text(const char *out, size_t written, const char *wanted)
{
    return written == strlen(wanted) && memcmp(out, wanted, written) == 0;
}

int main(void)
{
    static const char script[] = "join a\njoin b\nconflict a b\nhungry a\nbegin a\nhungry b\nbegin b\n";
    static const char replies[] = "joined 0.0\njoined 1.1\ndone\ndone\ndone\ndone\nrefused not-yet\n";
    char out[256], journal[256];
    size_t written = 0, length = 0;
    dine d = DINE_CLOSED;
    dine_task a;

    CHECK(dine_run_text(64, 256, false, script, strlen(script), out, sizeof out, &written) == DINE_GOOD);
    CHECK(is_text(out, written, replies));
    CHECK(dine_run_text(64, 256, false, "jump a\n", 7, out, sizeof out, &written) == DINE_FAULT);
    CHECK(dine_run_text(0, 256, false, script, strlen(script), out, sizeof out, &written) == DINE_BAD_LIMITS);
    CHECK(dine_run_text(64, 256, false, NULL, 0, NULL, 0, NULL) == DINE_GOOD);

    memset(out, 'x', sizeof out);
    CHECK(dine_run_text(64, 256, false, script, strlen(script), out, strlen(replies) - 1, &written) == DINE_TOO_SHORT);
    CHECK(written == strlen(replies) && out[0] == 'x');
    CHECK(dine_run_text(64, 256, false, script, strlen(script), out, strlen(replies), &written) == DINE_GOOD);
    CHECK(is_text(out, written, replies) && out[written] == 'x');

    CHECK(dine_run_text(64, 256, true, script, strlen(script), journal, sizeof journal, &length) == DINE_GOOD);
    CHECK(dine_audit_text(journal, length, out, sizeof out, &written) == DINE_GOOD);
    CHECK(is_text(out, written, "legal 7\novertakes 0\n"));
    memcpy(journal + length - 8, "not-pet", 7);
    CHECK(dine_audit_text(journal, length, out, sizeof out, &written) == DINE_FAULT);
    CHECK(is_text(out, written, "fault line 7\n"));
    CHECK(dine_audit_text(NULL, 0, out, sizeof out, &written) == DINE_FAULT && is_text(out, written, "fault header\n"));

    CHECK(dine_start(&d, 1, 1) == DINE_DONE && dine_join(&d, &a) == DINE_DONE);
    dine_end(&d);
    printf("%u checks hold\n", checks);
    return 0;
}
