/* The heap of the library as WebAssembly: what the proved code asks for by `rattle_alloc` and its like, as the
 * toolchain names them, and what the host asks for. Memory grows by pages, as it is needed, and no page is given back
 * to the engine: the host forgets the whole module for that.
 *
 * Blocks lie one behind the other. A block is a word with its size and two marks, and what is given of it, which begins
 * at a multiple of 16. A free block has links behind the word, and its size once more at its end, so that the block
 * behind it finds its beginning. Two free blocks are never neighbours: they are joined. Free blocks are kept in lists
 * by their size: sixteen lists for each power of two. A request takes the first block of the first list whose blocks
 * are all large enough, so it is answered in a few steps, however many blocks there are. */
#include "pages.h"

typedef unsigned char byte;

/* What the proved code gets of a request: whether there was memory, and where, which is never null. */
struct given {
    word ok;
    void *at;
};

struct block {
    word size; /* with the marks below */
    struct block *next, *previous;
};

enum { UNIT = 16, WORD = 8, SMALLEST = 32, FEW = 16, IN_USE = 1, BEFORE_IN_USE = 2, MARKS = 15 };
/* Of blocks below this size there is a list for each size. */
enum { SMALL = 512, SMALL_LISTS = SMALL / UNIT, STEPS = 16, POWERS = 38, LISTS = SMALL_LISTS + POWERS * STEPS };
/* More is asked for by no one who means it, and below it no sum here has more than 64 bits. */
static const word MOST = (word)1 << 46;

static struct block *lists[LISTS];
static word filled[(LISTS + 63) / 64]; /* a bit for each list: whether it has a block */
static word end;                       /* where the last page that is used ends; 0 before any */
static word in_use;                    /* how many bytes the blocks in use have, with their words */
static word limit;                     /* how many bytes of memory there may be; 0 is as many as the engine gives */
static byte nothing;

static word size_of(const struct block *block) {
    return block->size & ~(word)MARKS;
}

static struct block *behind(struct block *block) {
    return (struct block *)((byte *)block + size_of(block));
}

static void *room_of(struct block *block) {
    return (byte *)block + WORD;
}

static struct block *block_of(void *room) {
    return (struct block *)((byte *)room - WORD);
}

/* The list of the blocks of a size. */
static unsigned list_of(word size) {
    if (size < SMALL)
        return (unsigned)(size / UNIT);
    unsigned power = 63 - (unsigned)__builtin_clzl(size);
    return SMALL_LISTS + (power - 9) * STEPS + (unsigned)(size >> (power - 4) & (STEPS - 1));
}

/* The first list of which all blocks have the size. */
static unsigned first_list_for(word size) {
    if (size < SMALL)
        return list_of(size);
    unsigned power = 63 - (unsigned)__builtin_clzl(size);
    return list_of(size + ((word)1 << (power - 4)) - 1);
}

static void put_in_list(struct block *block) {
    unsigned list = list_of(size_of(block));
    block->previous = 0;
    block->next = lists[list];
    if (block->next)
        block->next->previous = block;
    lists[list] = block;
    filled[list / 64] |= (word)1 << list % 64;
}

static void take_from_list(struct block *block) {
    unsigned list = list_of(size_of(block));
    if (block->next)
        block->next->previous = block->previous;
    if (block->previous)
        block->previous->next = block->next;
    else
        lists[list] = block->next;
    if (!lists[list])
        filled[list / 64] &= ~((word)1 << list % 64);
}

/* A free block that has the size, or none. In the size's own list, which may have smaller blocks too, a few are looked
 * at: what was given back and is asked for again is found there. */
static struct block *find(word size) {
    unsigned list = first_list_for(size), at = list / 64;
    struct block *near = list_of(size) < list ? lists[list_of(size)] : 0;
    for (int looked_at = 0; near && looked_at < FEW; looked_at++, near = near->next)
        if (size_of(near) >= size)
            return near;
    word bits = at < sizeof filled / sizeof *filled ? filled[at] >> list % 64 << list % 64 : 0;
    while (!bits) {
        if (++at >= sizeof filled / sizeof *filled)
            return 0;
        bits = filled[at];
    }
    return lists[at * 64 + (unsigned)__builtin_ctzl(bits)];
}

/* Makes a free block of what lies there, joined with its neighbours where these are free, and gives it. The mark of the
 * block before it is the one of its word. */
static struct block *set_free(struct block *block, word size) {
    struct block *next = (struct block *)((byte *)block + size);
    if (!(next->size & IN_USE)) {
        take_from_list(next);
        size += size_of(next);
        next = behind(next);
    }
    if (!(block->size & BEFORE_IN_USE)) {
        word before = ((word *)block)[-1];
        block = (struct block *)((byte *)block - before);
        take_from_list(block);
        size += before;
    }
    block->size = size | BEFORE_IN_USE;
    ((word *)next)[-1] = size;
    next->size &= ~(word)BEFORE_IN_USE;
    put_in_list(block);
    return block;
}

/* Has a block in use have this size, and sets free what it has more. */
static void cut(struct block *block, word size) {
    word rest = size_of(block) - size;
    if (rest < SMALLEST)
        return;
    block->size = size | (block->size & MARKS);
    struct block *other = behind(block);
    other->size = BEFORE_IN_USE;
    in_use -= rest;
    set_free(other, rest);
}

/* Takes pages in which there is room for a block of this size, and gives the free block that has it, or none. */
static struct block *grow(word size) {
    word now = pages_now();
    /* A word before the first block, one behind the last, and what is left of the unit. */
    word needed = (size + UNIT + PAGE - 1) / PAGE, wanted = needed > now / 8 ? needed : now / 8;
    word most = limit ? limit / PAGE : ~(word)0;
    if (now > most || needed > most - now)
        return 0;
    if (wanted > most - now)
        wanted = most - now;
    word at = pages_more(wanted);
    if (at == ~(word)0 && wanted > needed)
        at = pages_more(wanted = needed);
    if (at == ~(word)0)
        return 0;
    word from = at * PAGE, to = from + wanted * PAGE;
    struct block *block;
    if (from == end) {
        block = (struct block *)(from - WORD);
    } else {
        /* The first pages, or others than the heap took some meanwhile. */
        block = (struct block *)(from + WORD);
        block->size = IN_USE | BEFORE_IN_USE;
    }
    /* A block without room ends the pages, so that no one looks behind them. */
    struct block *last = (struct block *)(to - WORD);
    last->size = IN_USE | BEFORE_IN_USE;
    end = to;
    return set_free(block, (word)((byte *)last - (byte *)block));
}

/* Takes what is left of the pages that the module begins with. */
static void begin(void) {
    word from = (first_address() + UNIT - 1) / UNIT * UNIT, to = pages_now() * PAGE;
    if (end || to < from + UNIT + SMALLEST)
        return;
    struct block *block = (struct block *)(from + WORD), *last = (struct block *)(to - WORD);
    block->size = IN_USE | BEFORE_IN_USE;
    last->size = IN_USE | BEFORE_IN_USE;
    end = to;
    set_free(block, (word)((byte *)last - (byte *)block));
}

/* The size of the block for a request, or 0 for one that is refused whatever there is. */
static word size_for(word bytes) {
    if (bytes > MOST)
        return 0;
    word size = (bytes + WORD + UNIT - 1) / UNIT * UNIT;
    return size < SMALLEST ? SMALLEST : size;
}

static void *take(word bytes) {
    word size = size_for(bytes);
    begin();
    struct block *block = size ? find(size) : 0;
    if (!block && size)
        block = grow(size);
    if (!block)
        return 0;
    take_from_list(block);
    block->size |= IN_USE;
    behind(block)->size |= BEFORE_IN_USE;
    in_use += size_of(block);
    cut(block, size);
    return room_of(block);
}

static void give_back(void *room) {
    struct block *block = block_of(room);
    /* It is none that was given. */
    if (!(block->size & IN_USE))
        __builtin_trap();
    in_use -= size_of(block);
    set_free(block, size_of(block));
}

/* Has a block of this size where it lies, by what is free behind it, and says whether it could. */
static int widen(struct block *block, word size) {
    struct block *next = behind(block);
    word whole = size_of(block);
    if (whole < size && !(next->size & IN_USE))
        whole += size_of(next);
    if (whole < size)
        return 0;
    if (whole > size_of(block)) {
        take_from_list(next);
        in_use += size_of(next);
        block->size += size_of(next);
        behind(block)->size |= BEFORE_IN_USE;
    }
    cut(block, size);
    return 1;
}

/* No bytes are as many as the alignment. Of more than 16 there is none that is asked for, and it is refused. */
struct given rattle_alloc(word bytes, word alignment) {
    void *at = alignment > UNIT ? 0 : take(bytes ? bytes : alignment);
    struct given given = {at != 0, at ? at : &nothing};
    return given;
}

void rattle_dealloc(void *room) {
    if (room)
        give_back(room);
}

struct given rattle_realloc(void *room, word kept, word bytes, word alignment) {
    if (!room)
        return rattle_alloc(bytes, alignment);
    struct given given = {0, &nothing};
    struct block *block = block_of(room);
    word size = alignment > UNIT ? 0 : size_for(bytes ? bytes : alignment);
    if (!size)
        return given;
    given.ok = 1;
    given.at = room;
    if (widen(block, size))
        return given;
    given.at = take(bytes);
    if (!given.at) {
        given.ok = 0;
        given.at = &nothing;
        return given;
    }
    word had = size_of(block) - WORD;
    __builtin_memcpy(given.at, room, kept < had ? kept : had);
    give_back(room);
    return given;
}

/* What the host calls: room for what it passes to calls, null where there is none; and how much memory there may be,
 * and is in use. */
void *host_alloc(word bytes) {
    return take(bytes);
}

void host_free(void *room) {
    rattle_dealloc(room);
}

void host_limit(word bytes) {
    limit = bytes;
}

word host_used(void) {
    return in_use;
}
