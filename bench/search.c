// One plain breadth-first search over adjacency lists, the unit in which bench/README.md counts; and the clock.
#include <stdint.h>
#include <time.h>

enum { MOST_VERTICES = 128 };

// The neighbours of v are neighbours[first[v]] up to, without it, neighbours[first[v + 1]].
// Writes each vertex's distance from the root (UINT32_MAX where there is no walk) and returns how many are reached.
uint32_t bench_search(const uint32_t *first, const uint32_t *neighbours, uint32_t n, uint32_t root, uint32_t *distance) {
    uint32_t queue[MOST_VERTICES];
    uint32_t head = 0, tail = 0;
    for (uint32_t v = 0; v < n; v++)
        distance[v] = UINT32_MAX;
    distance[root] = 0;
    queue[tail++] = root;
    while (head < tail) {
        uint32_t v = queue[head++];
        for (uint32_t i = first[v]; i < first[v + 1]; i++) {
            uint32_t w = neighbours[i];
            if (distance[w] == UINT32_MAX) {
                distance[w] = distance[v] + 1;
                queue[tail++] = w;
            }
        }
    }
    return tail;
}

// Processor time of this thread in nanoseconds: the turns of other programs don't count.
uint64_t bench_clock(void) {
    struct timespec now;
    clock_gettime(CLOCK_THREAD_CPUTIME_ID, &now);
    return (uint64_t)now.tv_sec * 1000000000u + (uint64_t)now.tv_nsec;
}
