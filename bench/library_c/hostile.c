/* hostile LAYERS DATAGRAMS CALLS SEED: gives the members of a group so many datagrams that an enemy may send (packets of the group with changed, cut and added
 * bytes, and random ones), and makes so many wrong calls: on closed handles, with rooms of any size, all lengths and kinds. It is run under valgrind, and ends
 * with 0 where each room was as it had to be behind its bytes. */
#include "group.h"

static uint64_t state;

static uint32_t draw(uint32_t below) {
    state = state * 6364136223846793005u + 1442695040888963407u;
    return (uint32_t)(state >> 33) % below;
}

/* A datagram of the group, kept when it was sent, with some bytes changed. Its memory is as long as it is, so that a read behind its end is seen. */
static uint8_t *changed(size_t *length) {
    struct packet *packet = &under_way.packets[draw(PLACES)];
    *length = packet->length && draw(4) ? packet->length : draw(MOST_BYTES);
    uint8_t *bytes = malloc(*length + 1);
    memcpy(bytes, packet->bytes, *length < MOST_BYTES ? *length : MOST_BYTES);
    for (uint32_t k = draw(4); k > 0 && *length; k--) bytes[draw(2) ? draw((uint32_t)*length) : draw((uint32_t)(*length < 24 ? *length : 24))] = (uint8_t)draw(256);
    if (draw(4) == 0) *length = draw((uint32_t)*length + 1);
    return realloc(bytes, *length + !*length);
}

static void hostile_datagrams(unsigned long count) {
    unsigned long taken = 0;
    uint8_t body[64] = {1};
    for (unsigned long k = 0; k < count; k++) {
        int me = (int)draw(MEMBERS);
        size_t length;
        uint8_t *bytes = changed(&length);
        uint32_t status = juq_receive(&members[me], bytes, length);
        free(bytes);
        taken += status <= JUQ_TAKEN_COMMON;
        if (status <= JUQ_TAKEN_COMMON) take(me, status);
        if (status == JUQ_OUT || draw(64) == 0) take(me, juq_cast(&members[me], body, draw(64)));
        if (draw(64) == 0) take(me, juq_tick(&members[me], (uint32_t)(k >> 12))); /* (so slow that nobody is given up) */
    }
    printf("datagrams %lu taken %lu\n", count, taken);
}

/* Takes outputs in a room of any size: what stands behind its bytes must stay, and all of it where it is too small. */
static unsigned small_rooms(juq_t *handle) {
    unsigned wrong = 0;
    for (int k = 0; k < 8; k++) {
        size_t size = draw(3) ? draw(200) : draw(9000);
        uint8_t *room = malloc(size + 1);
        memset(room, 0x5a, size + 1);
        juq_event event = {0};
        uint32_t status = juq_next(handle, &event, room, size);
        size_t behind = status == JUQ_TOLD ? event.length : 0;
        for (size_t at = behind; at <= size; at++) wrong += room[at] != 0x5a;
        wrong += status == JUQ_NO_ROOM && event.length <= size;
        free(room);
        if (status != JUQ_TOLD) break;
    }
    return wrong;
}

static uint32_t wrong_call(juq_t *handle, const uint8_t *bytes) {
    juq_fault fault = {0};
    uint8_t sentence[JUQ_LONGEST_SENTENCE];
    size_t length = draw(2) ? draw(64) : draw(9000);
    switch (draw(8)) {
    case 0: return juq_cast(handle, bytes, length);
    case 1: return juq_send(handle, draw(2) ? draw(4) : draw(1u << 31), bytes, length);
    case 2: return juq_leave(handle);
    case 3: return juq_tick(handle, draw(1u << 31) * 2u);
    case 4: return juq_receive(handle, bytes, length);
    case 5: return juq_open(handle, bytes, draw(64), draw(2), draw(9), draw(9), (uint8_t)draw(40), (uint8_t)draw(40), &fault, sentence, draw(sizeof sentence + 1));
    case 6: return draw(64) ? 0 : juq_close(handle);
    default: return (uint32_t)small_rooms(handle) * 1000u;
    }
}

int main(int argc, char **argv) {
    static uint8_t bytes[9000];
    static const uint8_t small[] = "stack { bottom; mnak; pt2pt; local; total; suspect; elect; sync; intra; top; }";
    unsigned long wrong = 0, refused = 0;
    if (argc != 5) return 2;
    state = strtoul(argv[4], NULL, 10);
    open_members(argv[1], true);
    for (size_t k = 0; k < sizeof bytes; k++) bytes[k] = (uint8_t)draw(256);
    for (int k = 0; k < 500; k++) {
        take(k % MEMBERS, juq_cast(&members[k % MEMBERS], bytes, draw(64)));
        take(k % MEMBERS, juq_send(&members[k % MEMBERS], draw(MEMBERS), bytes, draw(64)));
        take(k % MEMBERS, juq_tick(&members[k % MEMBERS], 0));
        for (; under_way.first != under_way.last && draw(8); under_way.first++)
            for (int to = 0; to < MEMBERS; to++)
                if (under_way.packets[under_way.first % PLACES].to >> to & 1) take(to, juq_receive(&members[to], under_way.packets[under_way.first % PLACES].bytes, under_way.packets[under_way.first % PLACES].length));
    }
    hostile_datagrams(strtoul(argv[2], NULL, 10));
    juq_t closed = JUQ_NONE;
    for (unsigned long k = strtoul(argv[3], NULL, 10); k > 0; k--) {
        juq_fault fault;
        uint8_t none = 0;
        if (draw(256) == 0) juq_open(&closed, small, sizeof small - 1, true, 7, 1, MEMBERS, (uint8_t)draw(MEMBERS), &fault, &none, 0);
        uint32_t status = wrong_call(&closed, bytes);
        wrong += status >= 1000;
        refused += status > JUQ_TAKEN_COMMON && status < 1000;
    }
    printf("calls %s refused %lu rooms_wrong %lu\n", argv[3], refused, wrong);
    juq_close(&closed);
    close_members();
    return wrong != 0;
}
