/* Opens mutated copies of files, visits and closes them: `mutate TIMES FILE..`. It ends with 0
 * where every result is one that the header names; a sanitizer sees the rest. */
#include "contents.h"
#include "try.h"

/* Changes the bytes at up to three places, most often in the beginning, where the text is, and
 * returns how many of them are left. */
static size_t mutated(unsigned char *bytes, size_t size)
{
    size_t left = size;
    size_t changes = any(4);
    while (changes-- > 0) {
        size_t at = any(any(2) == 0 && left > 1200 ? 1200 : left);
        switch (any(4)) {
        case 0:
            bytes[at] = (unsigned char)any(256);
            break;
        case 1:
            bytes[at] = (unsigned char)(bytes[at] ^ (1u << any(8)));
            break;
        case 2:
            if (bytes[at] >= '0' && bytes[at] <= '9')
                bytes[at] = (unsigned char)('0' + any(10));
            break;
        default:
            left = 1 + any(left);
        }
    }
    return left;
}

int main(int words, char **word)
{
    long opened[STATUSES] = { 0 };
    long times = words > 2 ? atol(word[1]) : 0, t;
    int i, wrong = 0;
    for (i = 2; i < words && wrong == 0; i++) {
        size_t size;
        unsigned char *good = contents_of(word[i], &size);
        unsigned char *bytes = (unsigned char *)malloc(size);
        if (good == NULL || bytes == NULL)
            return 2;
        for (t = 0; t < times && wrong == 0; t++) {
            memcpy(bytes, good, size);
            wrong = try_one(bytes, mutated(bytes, size), opened);
        }
        free(good);
        free(bytes);
    }
    printf("opened:");
    for (i = 0; i < STATUSES; i++)
        if (opened[i] != 0)
            printf(" %d:%ld", i, opened[i]);
    printf("\n");
    if (wrong != 0)
        printf("check %d failed\n", wrong);
    return wrong == 0 ? 0 : 3;
}
