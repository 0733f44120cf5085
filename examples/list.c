/* Lists the table of an extract and says where a new partition could start:
 *
 *     cc examples/list.c $(pkg-config --cflags --libs crumbvessel)
 *     python3 second/disk_k.py >target/k && ./a.out target/k 2048
 *
 * The words are a file with an extract and the new partition's sectors. Ends with 0, with 1 after a refusal, with 2 where
 * the words or the file are no good.
 */
#include <stdio.h>
#include <stdlib.h>

#include <crumbvessel.h>

/* One byte more than the longest extract has, so that a longer file is refused. */
static uint8_t extract[CV_EXTRACT(CV_RECORDS) + 1];
static uint8_t text[CV_LISTING];
static uint8_t table[CV_BLOCK];

static int refused(unsigned number)
{
    fprintf(stderr, "refused %u\n", number);
    return 1;
}

int main(int argc, char **argv)
{
    char *end = NULL;
    unsigned long sectors = argc == 3 ? strtoul(argv[2], &end, 10) : 0;
    if (argc != 3 || end == argv[2] || *end != '\0' || sectors > UINT32_MAX) {
        fprintf(stderr, "usage: list EXTRACT SECTORS\n");
        return 2;
    }
    FILE *file = fopen(argv[1], "rb");
    size_t length = file ? fread(extract, 1, sizeof extract, file) : 0;
    if (!file || ferror(file)) {
        perror(argv[1]);
        return 2;
    }
    fclose(file);

    unsigned number = cv_read(extract, length, table, sizeof table);
    if (number != CV_DONE)
        return refused(number);
    uint64_t answer = cv_listing(extract, length, text, sizeof text);
    if (cv_refused(answer))
        return refused(cv_refused(answer));
    fwrite(text, 1, cv_value(answer), stdout);
    answer = cv_find_first_place(table, sizeof table, (uint32_t)sectors);
    if (cv_refused(answer) == CV_NOTHING)
        printf("no place for %lu sectors\n", sectors);
    else if (cv_refused(answer))
        return refused(cv_refused(answer));
    else
        printf("a place for %lu sectors: %lu\n", sectors, (unsigned long)cv_value(answer));
    return 0;
}
