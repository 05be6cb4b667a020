/*
 * A column asked where it lies in a file, by mmap: nothing is copied, and only the pages that a look-up
 * touches are read.
 *
 *     ./mapped scores.column 7 70001
 *
 * The file must not become shorter while it is mapped: to touch a page that was cut away ends the program
 * with SIGBUS. So whoever brings a new column writes another file beside it and renames that over the old
 * one, as `signalfern write` does: the map then keeps the old bytes, whole, until it is opened again.
 */
#include <fcntl.h>
#include <inttypes.h>
#include <signalfern.h>
#include <stdio.h>
#include <stdlib.h>
#include <sys/mman.h>
#include <sys/stat.h>
#include <unistd.h>

/* The bytes of the file, or NULL. An empty file has no pages to map, and is no column. */
static const uint8_t *mapped(const char *path, size_t *len)
{
    struct stat about;
    int file = open(path, O_RDONLY);
    void *bytes = MAP_FAILED;
    if (file >= 0 && fstat(file, &about) == 0 && about.st_size > 0) {
        *len = (size_t)about.st_size;
        bytes = mmap(NULL, *len, PROT_READ, MAP_PRIVATE, file, 0);
    }
    if (file >= 0)
        close(file);
    return bytes == MAP_FAILED ? NULL : bytes;
}

/* The id that a word names; for any other word one above the limit, which a look-up refuses. */
static uint32_t id_of(const char *word)
{
    char *end;
    unsigned long long id = strtoull(word, &end, 10);
    int is_id = word[0] >= '0' && word[0] <= '9' && *end == 0 && id <= SIGNALFERN_MAX_ID;
    return is_id ? (uint32_t)id : SIGNALFERN_MAX_ID + 1;
}

int main(int argc, char **argv)
{
    size_t len = 0;
    const uint8_t *bytes = argc > 1 ? mapped(argv[1], &len) : NULL;
    if (!bytes) {
        fprintf(stderr, "usage: mapped COLUMN ID...\n");
        return 2;
    }
    /* Once, before anything is believed. */
    signalfern_reply checked = signalfern_check(bytes, len);
    if (checked.refusal) {
        fprintf(stderr, "%s: refusal %" PRIu64 ": %s\n", argv[1], checked.refusal, signalfern_refusal_text(checked.refusal));
        return 1;
    }
    signalfern_column column = signalfern_open(bytes, len);
    for (int i = 2; i < argc; i++) {
        signalfern_answer answer = signalfern_look_up_in(column, bytes, len, id_of(argv[i]));
        if (answer.kind == SIGNALFERN_FOUND)
            printf("%s %" PRId64 "\n", argv[i], answer.value);
        else
            printf("%s: %s\n", argv[i], answer.kind == SIGNALFERN_ABSENT ? "no score" : signalfern_refusal_text(answer.kind));
    }
    munmap((void *)bytes, len);
    return 0;
}
