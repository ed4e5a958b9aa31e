/* memory LAYERS CALLS OPENS: how often memory is taken or given back in so many calls after the opens (link with -Wl,--wrap=malloc,--wrap=realloc,--wrap=free),
 * and how much memory is resident after a hundred, and after so many opens and closes. */
#include <unistd.h>

#include "group.h"

unsigned long mallocs, grown, frees;
void *__real_malloc(size_t);
void *__real_realloc(void *, size_t);
void __real_free(void *);

void *__wrap_malloc(size_t size) {
    mallocs++;
    return __real_malloc(size);
}

void *__wrap_realloc(void *at, size_t size) {
    if (at) grown++;
    else mallocs++;
    return __real_realloc(at, size);
}

void __wrap_free(void *at) {
    frees++;
    __real_free(at);
}

/* Kilobytes. */
static long resident(void) {
    long pages = 0, all;
    FILE *file = fopen("/proc/self/statm", "r");
    if (!file || fscanf(file, "%ld %ld", &all, &pages) != 2) return -1;
    fclose(file);
    return pages * (sysconf(_SC_PAGESIZE) / 1024);
}

static void play(unsigned long calls) {
    static uint8_t body[64] = {7};
    for (unsigned cast = 0; steps + told < calls; cast++) {
        take(0, juq_cast(&members[0], body, sizeof body));
        if (cast % 64 == 0) take(1, juq_send(&members[1], 2, body, sizeof body));
        for (; under_way.first != under_way.last; under_way.first++) {
            struct packet packet = under_way.packets[under_way.first % PLACES];
            for (int to = 0; to < MEMBERS; to++)
                if (packet.to >> to & 1) take(to, juq_receive(&members[to], packet.bytes, packet.length));
        }
        if (cast % 100 == 99)
            for (int me = 0; me < MEMBERS; me++) take(me, juq_tick(&members[me], cast / 10));
    }
}

int main(int argc, char **argv) {
    if (argc != 4) return 2;
    open_members(argv[1], true);
    unsigned long before = mallocs + grown + frees;
    play(strtoul(argv[2], NULL, 10));
    printf("calls %lu allocations %lu\n", steps + told, mallocs + grown + frees - before);
    close_members();
    int opens = atoi(argv[3]);
    for (int k = 0; k < opens / MEMBERS; k++) {
        unsigned long took = mallocs, gave = frees;
        open_members(argv[1], true);
        close_members();
        if (k == 33) printf("opens %d resident_kB %ld an open takes memory %lu times, and %lu are left\n", k * MEMBERS, resident(), (mallocs - took) / MEMBERS, (mallocs - took) - (frees - gave));
    }
    printf("opens %d resident_kB %ld\n", opens, resident());
    return 0;
}
