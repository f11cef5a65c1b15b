/* Two syncs in a row: a block of 4 KiB of one file and its sync, then the same of another one. That is what a commit of one client waits for at least.
 *
 * Use: syncs FILE FILE SECONDS. It prints one line of JSON, as load does. Both files are written whole first, so no sync has a length to store.
 */
#define _GNU_SOURCE
#include <fcntl.h>
#include <stdbool.h>
#include <stdio.h>
#include <stdlib.h>
#include <string.h>
#include <unistd.h>

#include "waits.h"

enum { BLOCK = 4096, BLOCKS = 2048, FILES = 2 };

static char block[BLOCK];

static int laid_out(const char *name)
{
    int file = open(name, O_CREAT | O_TRUNC | O_WRONLY, 0600);
    memset(block, 1, BLOCK);
    for (int i = 0; i < BLOCKS; i++)
        if (write(file, block, BLOCK) != BLOCK) return -1;
    return fsync(file) ? -1 : file;
}

static bool pair(const int *files, unsigned long number)
{
    memset(block, (int)number, BLOCK);
    for (int i = 0; i < FILES; i++)
        if (pwrite(files[i], block, BLOCK, (off_t)(number % BLOCKS) * BLOCK) != BLOCK || fdatasync(files[i])) return false;
    return true;
}

int main(int argc, char **argv)
{
    static Waits waits;
    int files[FILES];
    if (argc != FILES + 2) return 2;
    for (int i = 0; i < FILES; i++)
        if ((files[i] = laid_out(argv[i + 1])) < 0) return 1;
    double begun = now(), seconds = atof(argv[FILES + 1]), from = begun;
    for (unsigned long number = 0; (from = now()) < begun + seconds; number++) {
        if (!pair(files, number)) return 1;
        waits_note(&waits, now() - from);
    }
    printf("{\"per_s\": %.0f, \"p50\": %.3f, \"p90\": %.3f", (double)waits.count / (now() - begun), waits_at(&waits, 0.5), waits_at(&waits, 0.9));
    printf(", \"p99\": %.3f, \"p999\": %.3f, \"max\": %.3f}\n", waits_at(&waits, 0.99), waits_at(&waits, 0.999), waits.greatest * 1e3);
    return 0;
}
