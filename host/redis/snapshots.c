/* `snapshots FOLDER` saves each store as FOLDER/NAME.snapshot, with the reply to its whole range beside it, NAME.reply. */
#include <stdio.h>

#include "cases.h"

static struct held held;
static uint8_t snapshot[WALLATHI_LONGEST_SNAPSHOT], reply[REPLY_BYTES];

static void put_file(const char *folder, const char *name, const char *suffix, const uint8_t *bytes, size_t length)
{
    char path[500];
    snprintf(path, sizeof path, "%s/%s.%s", folder, name, suffix);
    FILE *out = fopen(path, "wb");
    must(out != NULL && fwrite(bytes, 1, length, out) == length && fclose(out) == 0, path);
}

int main(int argc, char **argv)
{
    const struct range whole = {0, 0, UINT64_MAX, UINT64_MAX};
    must(argc == 2, "usage: snapshots FOLDER");
    for (unsigned i = 0; i < CASES; i++) {
        uint64_t length;
        make_case(i, &held);
        must(wallathi_save(held.store, held.length, held.state, snapshot, sizeof snapshot, &length) == WALLATHI_OK, "save");
        put_file(argv[1], case_names[i], "snapshot", snapshot, (size_t)length);
        length = range_reply(&held, &whole, reply, sizeof reply);
        must_read_back(&held, &whole, reply, (size_t)length);
        put_file(argv[1], case_names[i], "reply", reply, (size_t)length);
    }
    return 0;
}
