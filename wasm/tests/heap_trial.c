/* Random requests to the heap, beside a model of what is in use: whose each 16 bytes are, and what was written there.
 * Runs on the machine itself, where the sanitizers look on, and as WebAssembly. */
#include "../pages.h"

typedef unsigned char byte;

struct given {
    word ok;
    void *at;
};

struct given rattle_alloc(word bytes, word alignment);
struct given rattle_realloc(void *room, word kept, word bytes, word alignment);
void rattle_dealloc(void *room);
void *host_alloc(word bytes);
void host_free(void *room);
void host_limit(word bytes);
word host_used(void);

enum { UNIT = 16, HELD = 4096, UNITS = 1 << 22 };

struct held {
    byte *at;
    word bytes;
    byte sign;
};

static struct held all[HELD];
static byte taken[UNITS];
static word state, origin;

static word some(word below) {
    state ^= state << 13;
    state ^= state >> 7;
    state ^= state << 17;
    return state % below;
}

/* Small ones mostly, as a log asks, and large ones now and then. */
static word some_bytes(void) {
    switch (some(16)) {
    case 0: return some(200000);
    case 1: case 2: return some(9000);
    case 3: return some(2);
    default: return some(400);
    }
}

/* The units of a piece, which were free before and are in use then, or the other way round. */
static int mark(const struct held *it, byte to) {
    word from = ((word)it->at - origin) / UNIT, units = (it->bytes + UNIT - 1) / UNIT;
    if ((word)it->at % UNIT || (word)it->at < origin || from + units > UNITS)
        return 0;
    for (word unit = from; unit < from + units; unit++) {
        if (taken[unit] == to)
            return 0;
        taken[unit] = to;
    }
    return 1;
}

static void write(struct held *it) {
    it->sign = (byte)some(256);
    for (word place = 0; place < it->bytes; place++)
        it->at[place] = (byte)(it->sign + place);
}

static int is_kept(const struct held *it, word bytes) {
    for (word place = 0; place < bytes; place++)
        if (it->at[place] != (byte)(it->sign + place))
            return 0;
    return 1;
}

static word refused;

/* A new piece; of no bytes it has those of its alignment. */
static int take(struct held *it) {
    word bytes = some_bytes(), alignment = (word)1 << some(5);
    struct given given = rattle_alloc(bytes, alignment);
    if (given.ok > 1 || !given.at)
        return 0;
    if (!given.ok) {
        refused++;
        return 1;
    }
    it->at = given.at;
    it->bytes = bytes ? bytes : alignment;
    if (!mark(it, 1))
        return 0;
    write(it);
    return 1;
}

static int change(struct held *it) {
    word bytes = some_bytes(), kept = bytes < it->bytes ? bytes : it->bytes;
    if (!mark(it, 0))
        return 0;
    struct given given = rattle_realloc(it->at, kept, bytes, UNIT);
    if (!given.ok) {
        refused++;
        return given.at && mark(it, 1) && is_kept(it, it->bytes);
    }
    it->at = given.at;
    it->bytes = bytes ? bytes : UNIT;
    if (!mark(it, 1) || !is_kept(it, kept))
        return 0;
    write(it);
    return 1;
}

static int give_back(struct held *it) {
    if (!is_kept(it, it->bytes) || !mark(it, 0))
        return 0;
    rattle_dealloc(it->at);
    it->at = 0;
    return 1;
}

/* More than there is: it is refused, and nothing has changed. */
static int ask_too_much(void) {
    word before = host_used();
    word numbers[] = {
        ~(word)0, ~(word)0 - 7, ~(word)0 - 15, (word)1 << 63, ((word)1 << 46) + 1, (word)1 << 46, (word)1 << 40,
    };
    for (unsigned place = 0; place < sizeof numbers / sizeof *numbers; place++)
        if (rattle_alloc(numbers[place], 1).ok || host_alloc(numbers[place]))
            return 0;
    return host_used() == before && !rattle_alloc(8, 32).ok && host_used() == before;
}

/* 0 where all was well; else the number of the request, from 1, at which it was not. Memory may end at this address; at
 * first, and half of the time behind that, it ends where it does. Where others take no pages meanwhile, they are one
 * piece in the end. */
word heap_trial(word seed, word requests, word most, int is_one_piece) {
    state = seed * 2 + 1;
    origin = first_address() / PAGE * PAGE;
    word held = 0, highest = 0;
    for (word number = 1; number <= requests; number++) {
        if (number % 50000 == 1)
            host_limit(number == 1 || some(2) ? pages_now() * PAGE : most);
        struct held *it = &all[some(HELD)];
        word before = host_used();
        int is_well = it->at ? (some(3) ? give_back(it) : change(it)) : take(it);
        held += host_used() - before;
        highest = held > highest ? held : highest;
        if (!is_well || (number % 10000 == 1 && !ask_too_much()))
            return number;
    }
    for (unsigned place = 0; place < HELD; place++)
        if (all[place].at && !give_back(&all[place]))
            return requests + 1;
    /* All is given back, and joined: there is room for nearly all pages at once, and none is taken for it. */
    if (host_used() || !refused || highest < PAGE)
        return requests + 2;
    word pages = pages_now();
    void *whole = host_alloc(pages * PAGE - first_address() - 4096);
    if (is_one_piece && (!whole || pages_now() != pages))
        return requests + 3;
    host_free(whole);
    return host_used() ? requests + 4 : 0;
}

word heap_refused(void) {
    return refused;
}
