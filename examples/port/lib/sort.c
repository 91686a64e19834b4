/* Sorting, and looking for what is sorted. */
#include <stdlib.h>
#include <string.h>

typedef int (*compare_function)(const void *, const void *);

/* what is sorted: parts of a size, and how they compare */
struct sort {
    size_t size;
    compare_function compare;
};

enum { FEW = 6 };

static void swap(char *a, char *b, size_t size)
{
    for (size_t k = 0; k < size; k++) {
        char c = a[k];
        a[k] = b[k];
        b[k] = c;
    }
}

/* Each part goes down to where the one before it is no greater. */
static void insert_all(const struct sort *sort, char *base, size_t count)
{
    size_t size = sort->size;

    for (size_t k = 1; k < count; k++)
        for (char *at = base + k * size; at > base && sort->compare(at - size, at) > 0; at -= size)
            swap(at - size, at, size);
}

/* Sorts two halves, and puts together of them: from a copy of the first one and from the second one where it stands,
   whichever is less, and of two equal ones that of the first. */
static void merge_sort(const struct sort *sort, char *base, size_t count, char *copy)
{
    size_t size = sort->size, half = count / 2;

    if (count <= FEW) {
        insert_all(sort, base, count);
        return;
    }

    char *second = base + half * size, *end = base + count * size, *copy_end = copy + half * size;
    merge_sort(sort, base, half, copy);
    merge_sort(sort, second, count - half, copy);
    if (sort->compare(second - size, second) <= 0)
        return;
    memcpy(copy, base, half * size);
    for (char *to = base; copy < copy_end; to += size) {
        char **from = second == end || sort->compare(copy, second) <= 0 ? &copy : &second;
        memcpy(to, *from, size);
        *from += size;
    }
}

/* Without memory for a copy of one half it takes longer, and comes to the same. */
void qsort(void *base, size_t count, size_t size, compare_function compare)
{
    struct sort sort = { size, compare };
    char *copy = count > FEW ? malloc(count / 2 * size) : NULL;

    if (copy)
        merge_sort(&sort, base, count, copy);
    else
        insert_all(&sort, base, count);
    free(copy);
}

void *bsearch(const void *key, const void *base, size_t count, size_t size, compare_function compare)
{
    const char *first = base;

    while (count > 0) {
        const char *middle = first + count / 2 * size;
        int order = compare(key, middle);
        if (order == 0)
            return (void *)middle;
        if (order > 0) {
            first = middle + size;
            count--;
        }
        count /= 2;
    }
    return NULL;
}
