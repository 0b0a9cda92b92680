/* The 0/1 knapsack by branch and bound on one stack, as a C programmer writes it: lines in the same order, the same bound and
 * the same order of visits as `glb knap` on one list. It reads `N C` and N lines `weight value` and prints the same report; with
 * VISITED set it tells on standard error how many packs it visited.
 *
 *     cc -O3 -march=native -o knap bench/knap.c && bench/knapsack 64 2 10000 1000 | ./knap
 */
#include <stdint.h>
#include <stdio.h>
#include <stdlib.h>

typedef struct {
    uint32_t next;
    uint64_t weight, value, taken;
} Pack;

typedef struct {
    uint64_t weight, value;
    int number;
} Line;

static Line lines[64];
static int count;
static uint64_t capacity;

static int by_density(const void *a, const void *b)
{
    const Line *x = a, *y = b;
    unsigned __int128 left = (unsigned __int128)x->value * y->weight, right = (unsigned __int128)y->value * x->weight;
    return left > right ? -1 : left < right ? 1 : x->number - y->number;
}

static uint64_t cap(const Pack *pack)
{
    uint64_t value = pack->value, weight = pack->weight;
    for (int i = pack->next; i < count; i++) {
        if (weight + lines[i].weight > capacity)
            return value + (capacity - weight) * lines[i].value / lines[i].weight;
        weight += lines[i].weight;
        value += lines[i].value;
    }
    return value;
}

static uint64_t search(uint64_t *visited)
{
    size_t room = 1024, waiting = 0;
    Pack *stack = malloc(room * sizeof *stack);
    uint64_t best = 0;
    stack[waiting++] = (Pack){0, 0, 0, 0};
    while (waiting) {
        Pack pack = stack[--waiting];
        ++*visited;
        uint64_t most = cap(&pack);
        if (most <= best)
            continue;
        if (pack.value > best)
            best = pack.value;
        if (most <= best || (int)pack.next == count)
            continue;
        if (waiting + 2 > room)
            stack = realloc(stack, (room *= 2) * sizeof *stack);
        Line line = lines[pack.next];
        stack[waiting++] = (Pack){pack.next + 1, pack.weight, pack.value, pack.taken};
        if (pack.weight + line.weight <= capacity)
            stack[waiting++] = (Pack){pack.next + 1, pack.weight + line.weight, pack.value + line.value,
                                      pack.taken | 1ull << line.number};
    }
    free(stack);
    return best;
}

int main(void)
{
    uint64_t visited = 0;
    if (scanf("%d %lu", &count, &capacity) != 2 || count > 64)
        return 1;
    for (int i = 0; i < count; i++) {
        if (scanf("%lu %lu", &lines[i].weight, &lines[i].value) != 2)
            return 1;
        lines[i].number = i;
    }
    qsort(lines, count, sizeof *lines, by_density);
    uint64_t best = search(&visited);
    printf("knap %d %lu\nbest %lu\n", count, capacity, best);
    if (getenv("VISITED"))
        fprintf(stderr, "%lu visited\n", visited);
    return 0;
}
