/* steps LAYERS bypass|layered CASTS: three members in one process, over a network that loses nothing. Member 0 casts 64 bytes, and each datagram is given
 * at once to those that it is for; each hundredth cast all get a tick. Prints the steps a second of the processor's time, each with the taking of its outputs,
 * and then, of a second run in which each step is timed, the times of casts and of receives (each some 25 ns too long, the clock's own time). */
#include "group.h"

static uint32_t *times[2];
static unsigned counts[2];

static int by_size(const void *one, const void *other) {
    uint32_t a = *(const uint32_t *)one, b = *(const uint32_t *)other;
    return (a > b) - (a < b);
}

static void put_time(int what, uint64_t began, bool timed) {
    if (timed) times[what][counts[what]++] = (uint32_t)(nanoseconds() - began);
}

static void give_all(bool timed) {
    while (under_way.first != under_way.last) {
        struct packet *packet = &under_way.packets[under_way.first++ % PLACES];
        for (int to = 0; to < MEMBERS; to++) {
            if (!(packet->to >> to & 1)) continue;
            uint64_t began = timed ? nanoseconds() : 0;
            take(to, juq_receive(&members[to], packet->bytes, packet->length));
            put_time(1, began, timed);
        }
    }
}

static void play(int casts, bool timed) {
    static uint8_t body[64] = {7};
    for (int cast = 0; cast < casts; cast++) {
        uint64_t began = timed ? nanoseconds() : 0;
        take(0, juq_cast(&members[0], body, sizeof body));
        put_time(0, began, timed);
        give_all(timed);
        if (cast % 100 == 99) {
            for (int me = 0; me < MEMBERS; me++) take(me, juq_tick(&members[me], (uint32_t)(cast / 10)));
            give_all(timed);
        }
    }
}

int main(int argc, char **argv) {
    if (argc != 4) return 2;
    bool bypass = !strcmp(argv[2], "bypass");
    int casts = atoi(argv[3]);
    uint64_t began = of_processor();
    open_members(argv[1], bypass);
    printf("open_us %.0f\n", (double)(of_processor() - began) / 1e3 / MEMBERS);
    began = of_processor();
    play(casts, false);
    double seconds = (double)(of_processor() - began) / 1e9;
    printf("steps %lu common %lu told %lu delivered %lu steps_s %.0f casts_s %.0f\n", steps, commons, told, delivered, (double)steps / seconds, casts / seconds);
    close_members();
    if (getenv("ONCE")) return 0; /* (for callgrind) */
    open_members(argv[1], bypass);
    for (int what = 0; what < 2; what++) times[what] = malloc(sizeof(uint32_t) * (size_t)casts * 100);
    play(casts, true);
    for (int what = 0; what < 2; what++) {
        qsort(times[what], counts[what], sizeof(uint32_t), by_size);
        printf("%s %u p50_ns %u p99_ns %u\n", what ? "receive" : "cast", counts[what], times[what][counts[what] / 2], times[what][counts[what] * 99ull / 100]);
    }
    close_members();
    return 0;
}
