/* Refuses requests for memory of the proved code, by its number, counted from 1; 0 refuses none. Linked with --wrap for
 * both, in front of the heap: what the host asks for is not refused. */
typedef unsigned long word;

struct given {
    word ok;
    void *at;
};

struct given __real_rattle_alloc(word bytes, word alignment);
struct given __real_rattle_realloc(void *room, word kept, word bytes, word alignment);

static word refused_at, goes_on, asked, was_refused;
static unsigned char nothing;

void refuse(word number, word and_all_behind) {
    refused_at = number;
    goes_on = and_all_behind;
    asked = was_refused = 0;
}

word refused(void) {
    return was_refused;
}

static int is_refused(void) {
    asked++;
    int it = refused_at && (asked == refused_at || (goes_on && asked > refused_at));
    was_refused += (word)it;
    return it;
}

struct given __wrap_rattle_alloc(word bytes, word alignment) {
    struct given none = {0, &nothing};
    return is_refused() ? none : __real_rattle_alloc(bytes, alignment);
}

struct given __wrap_rattle_realloc(void *room, word kept, word bytes, word alignment) {
    struct given none = {0, &nothing};
    return is_refused() ? none : __real_rattle_realloc(room, kept, bytes, alignment);
}
