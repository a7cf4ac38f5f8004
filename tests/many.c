/*
 * many.c - runs the second program on many feeds in one process: a sanitizer's own start takes seconds on some machines.
 * FEEDS has 4 bytes of length and the feed, again and again; ONE holds one feed at a time; a WORD is the program's own. Prints
 * `end` after each feed's lines, and before it a status that is not 0.
 *
 *     gcc -Dmain=second_main -o many second/second.c tests/many.c
 *     ./many FEEDS ONE [WORD]
 */
#include <stdio.h>

#undef main
int second_main(int, char **);

static int copy(FILE *from, long left, const char *name)
{
    FILE *to = fopen(name, "w");
    for (; to != NULL && left > 0; left--)
        putc(getc(from), to);
    return to != NULL && fclose(to) == 0;
}

int main(int count, char **words)
{
    unsigned char size[4];
    FILE *feeds = count >= 3 ? fopen(words[1], "r") : NULL;
    if (feeds == NULL)
        return 2;
    while (fread(size, 1, 4, feeds) == 4) {
        long length = size[0] * 16777216L + size[1] * 65536L + size[2] * 256L + size[3];
        if (!copy(feeds, length, words[2]) || freopen(words[2], "r", stdin) == NULL)
            return 2;
        int status = second_main(count - 2, words + 2);
        if (status != 0)
            printf("status %d\n", status);
        printf("end\n");
    }
    return fclose(feeds) == 0 ? 0 : 2;
}
