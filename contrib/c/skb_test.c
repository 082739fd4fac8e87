/* Packet buffers against a model: each call by its numbers, each allocation refused in turn, and random calls. Ends with 0 where all holds.
 *
 * usage: skb_test [STEPS [SEED]] */
#include <offload.h>
#include <pthread.h>
#include <stdio.h>
#include <stdlib.h>
#include <string.h>

enum { BLOCK = 2048, BLOCKS = 12, PLACES = 12, MOST = 200000 };

static int wrong;
static _Atomic long left = -1; /* how many allocations are granted yet; all where it is negative */
static _Atomic long asked;

void *__real_malloc(size_t);
void *__real_realloc(void *, size_t);

static int is_granted(void) {
    asked++;
    return left < 0 || left-- > 0;
}

void *__wrap_malloc(size_t size) {
    return is_granted() ? __real_malloc(size) : NULL;
}

void *__wrap_realloc(void *at, size_t size) {
    return is_granted() ? __real_realloc(at, size) : NULL;
}

static void check(int holds, const char *what) {
    if (holds) return;
    printf("FAILED: %s\n", what);
    wrong = 1;
}

static const uint8_t *text(const char *word) {
    return (const uint8_t *)word;
}

static int has(struct offload_skb *skb, const char *word) {
    char bytes[64];
    size_t length = strlen(word);
    return offload_skb_length(skb) == length && offload_skb_read(skb, 0, (uint8_t *)bytes, length) == OFFLOAD_OK && !memcmp(bytes, word, length);
}

/* Numbers that aren't as they have to be, and places that are empty or not. */
static void numbers(void) {
    struct offload_pool none = {0}, pool = {0};
    struct offload_skb skb = {0}, other = {0}, third = {0};
    uint8_t byte = 0xa5;
    check(offload_pool_home(&none) == 0 && offload_skb_length(&skb) == 0, "nothing has no block and no byte");
    check(offload_pool_new(&pool, 0) == OFFLOAD_USAGE && offload_pool_new(&pool, 65537) == OFFLOAD_USAGE && !pool.made, "so many blocks aren't made");
    check(offload_skb_new(&none, &skb, 64) == OFFLOAD_USAGE && !skb.made, "a buffer of no pool");
    check(offload_pool_new(&pool, 2) == OFFLOAD_OK && offload_pool_new(&pool, 2) == OFFLOAD_USAGE && offload_pool_home(&pool) == 2, "a pool once");
    check(offload_skb_new(&pool, &skb, BLOCK + 1) == OFFLOAD_USAGE && offload_pool_home(&pool) == 2, "more headroom than a block has");
    check(offload_skb_push(&skb, &byte, 1) == OFFLOAD_USAGE && offload_skb_put_tail(&skb, &byte, 1) == OFFLOAD_USAGE, "bytes into nothing");
    check(offload_skb_pull(&pool, &skb, 0) == OFFLOAD_USAGE && offload_skb_trim(&pool, &skb, 0) == OFFLOAD_USAGE, "nothing is cut");
    check(offload_skb_clone(&skb, &other) == OFFLOAD_USAGE && offload_skb_unshare(&pool, &skb) == OFFLOAD_USAGE, "nothing is shared");
    check(offload_skb_copy(&pool, &skb, &other) == OFFLOAD_USAGE, "nothing is copied");
    check(offload_skb_split_at(&pool, &skb, 0, &other) == OFFLOAD_USAGE && offload_skb_attach(&pool, &skb, &other) == OFFLOAD_USAGE, "of nothing");
    check(offload_skb_read(&skb, 0, &byte, 0) == OFFLOAD_USAGE && offload_skb_release(&pool, &skb) == OFFLOAD_USAGE, "nothing is read or ended");
    check(offload_skb_new(&pool, &skb, BLOCK) == OFFLOAD_OK && offload_skb_new(&pool, &skb, 0) == OFFLOAD_USAGE, "a buffer once");
    check(offload_skb_put_tail(&skb, &byte, 1) == OFFLOAD_NO_ROOM && offload_skb_put_tail(&skb, &byte, 0) == OFFLOAD_OK, "no tailroom");
    check(offload_skb_push(&skb, text("abc"), 3) == OFFLOAD_OK && has(&skb, "abc"), "headroom");
    check(offload_skb_pull(&pool, &skb, 4) == OFFLOAD_USAGE && offload_skb_trim(&pool, &skb, 4) == OFFLOAD_USAGE && has(&skb, "abc"), "fewer bytes");
    check(offload_skb_read(&skb, 1, &byte, 3) == OFFLOAD_USAGE && offload_skb_read(&skb, 4, &byte, 0) == OFFLOAD_USAGE &&
              offload_skb_read(&skb, SIZE_MAX, &byte, 1) == OFFLOAD_USAGE && byte == 0xa5, "reading behind the end");
    check(offload_skb_split_at(&pool, &skb, 4, &other) == OFFLOAD_USAGE && offload_pool_home(&pool) == 1, "a cut behind the end");
    check(offload_skb_clone(&skb, &other) == OFFLOAD_OK && offload_skb_clone(&skb, &other) == OFFLOAD_USAGE && has(&other, "abc"), "a clone");
    check(offload_skb_copy(&pool, &skb, &other) == OFFLOAD_USAGE && offload_skb_copy(&pool, &skb, &third) == OFFLOAD_OK, "a copy");
    check(has(&third, "abc") && offload_skb_push(&third, text("!"), 1) == OFFLOAD_OK && has(&third, "!abc") && has(&skb, "abc"), "it shares nothing");
    check(offload_skb_release(&pool, &third) == OFFLOAD_OK && offload_pool_home(&pool) == 1, "its block");
    check(offload_skb_push(&skb, &byte, 1) == OFFLOAD_NOT_SOLE && offload_skb_push(&other, &byte, 1) == OFFLOAD_NOT_SOLE, "shared");
    check(offload_skb_new(&pool, &third, 0) == OFFLOAD_OK && offload_skb_unshare(&pool, &other) == OFFLOAD_POOL_EMPTY, "no block to copy into");
    check(offload_skb_copy(&pool, &skb, &(struct offload_skb){0}) == OFFLOAD_POOL_EMPTY, "nor for a copy");
    check(offload_skb_split_at(&pool, &skb, 1, &third) == OFFLOAD_USAGE, "its place isn't empty");
    check(offload_skb_release(&pool, &third) == OFFLOAD_OK && offload_skb_unshare(&pool, &other) == OFFLOAD_OK, "a block to copy into");
    check(offload_skb_push(&other, text("!"), 1) == OFFLOAD_OK && has(&other, "!abc") && has(&skb, "abc"), "a clone that is written");
    check(offload_skb_release(&none, &skb) == OFFLOAD_USAGE && has(&skb, "abc"), "to no pool");
    check(offload_skb_release(&pool, &skb) == OFFLOAD_OK && offload_skb_release(&pool, &other) == OFFLOAD_OK && offload_pool_home(&pool) == 2, "home");
    check(!skb.at && !skb.made, "zeros");
    offload_pool_free(&pool);
    offload_pool_free(&pool);
    check(!pool.at && !pool.made, "zeros of a pool");
}

/* ---- random calls against a model: the bytes of each buffer, and nothing else */

struct model {
    uint8_t *bytes;
    size_t length;
};

static struct offload_pool pool;
static struct offload_skb skbs[PLACES];
static struct model models[PLACES];
static uint64_t state;

static uint32_t below(uint32_t bound) {
    state ^= state << 13;
    state ^= state >> 7;
    state ^= state << 17;
    return (uint32_t)((state >> 33) % bound);
}

static uint8_t *copy_of(const uint8_t *bytes, size_t length) {
    uint8_t *copy = __real_malloc(length + 1);
    if (!copy) exit(OFFLOAD_NO_MEMORY);
    if (length) memcpy(copy, bytes, length);
    return copy;
}

static void set(int at, uint8_t *bytes, size_t length) {
    free(models[at].bytes);
    models[at] = (struct model){bytes, length};
}

static void cut(int at, size_t from, size_t length) {
    set(at, copy_of(models[at].bytes + from, length), length);
}

static void join(int at, const uint8_t *front, size_t front_length, const uint8_t *back, size_t back_length) {
    uint8_t *bytes = __real_malloc(front_length + back_length + 1);
    if (!bytes) exit(OFFLOAD_NO_MEMORY);
    if (front_length) memcpy(bytes, front, front_length);
    if (back_length) memcpy(bytes + front_length, back, back_length);
    set(at, bytes, front_length + back_length);
}

static int is_as_modelled(int at) {
    if (skbs[at].made != (models[at].bytes != NULL)) return 0;
    if (!skbs[at].made) return 1;
    if (offload_skb_length(&skbs[at]) != models[at].length) return 0;
    uint8_t *bytes = __real_malloc(models[at].length + 1);
    int same = bytes && offload_skb_read(&skbs[at], 0, bytes, models[at].length) == OFFLOAD_OK && !memcmp(bytes, models[at].bytes, models[at].length);
    free(bytes);
    return same;
}

static void end(int at) {
    check(offload_skb_release(&pool, &skbs[at]) == OFFLOAD_OK, "a buffer is released");
    set(at, NULL, 0);
}

static long seen[10]; /* how often each status was answered */

/* One call, and what it does to the model where it is answered OK. */
static void step(void) {
    int at = (int)below(PLACES), to = (int)below(PLACES);
    uint8_t bytes[600];
    size_t length = below(sizeof bytes), n = models[at].length ? below((uint32_t)models[at].length + 2) : below(2);
    struct model *model = &models[at];
    uint32_t status = 0;
    for (size_t i = 0; i < length; i++) bytes[i] = (uint8_t)below(256);
    if (to == at) to = (at + 1) % PLACES;
    switch (below(10)) {
    case 0:
        n = below(BLOCK + 2);
        status = offload_skb_new(&pool, &skbs[at], n);
        if (status == OFFLOAD_OK) set(at, copy_of(NULL, 0), 0);
        break;
    case 1:
        status = offload_skb_push(&skbs[at], bytes, length);
        if (status == OFFLOAD_OK) join(at, bytes, length, model->bytes, model->length);
        break;
    case 2:
        status = offload_skb_put_tail(&skbs[at], bytes, length);
        if (status == OFFLOAD_OK) join(at, model->bytes, model->length, bytes, length);
        break;
    case 3:
        status = offload_skb_pull(&pool, &skbs[at], n / 4);
        if (status == OFFLOAD_OK) cut(at, n / 4, model->length - n / 4);
        break;
    case 4:
        status = offload_skb_trim(&pool, &skbs[at], n / 4);
        if (status == OFFLOAD_OK) cut(at, 0, model->length - n / 4);
        break;
    case 5:
        status = offload_skb_clone(&skbs[at], &skbs[to]);
        if (status == OFFLOAD_OK) set(to, copy_of(model->bytes, model->length), model->length);
        break;
    case 6:
        status = offload_skb_unshare(&pool, &skbs[at]);
        break;
    case 7:
        status = offload_skb_split_at(&pool, &skbs[at], n, &skbs[to]);
        if (status == OFFLOAD_OK) {
            set(to, copy_of(model->bytes + n, model->length - n), model->length - n);
            cut(at, 0, n);
        }
        break;
    case 8:
        status = offload_skb_copy(&pool, &skbs[at], &skbs[to]);
        if (status == OFFLOAD_OK) set(to, copy_of(model->bytes, model->length), model->length);
        break;
    default:
        status = offload_skb_attach(&pool, &skbs[at], &skbs[to]);
        if (status == OFFLOAD_OK) {
            join(at, model->bytes, model->length, models[to].bytes, models[to].length);
            set(to, NULL, 0);
        }
    }
    seen[status]++;
    if (skbs[at].made && (model->length > MOST || below(12) == 0)) end(at);
    check(is_as_modelled(at) && is_as_modelled(to), "a buffer has the model's bytes");
}

static void steps(long count, uint64_t seed) {
    state = seed;
    check(offload_pool_new(&pool, BLOCKS) == OFFLOAD_OK, "a pool");
    for (long i = 0; i < count && !wrong; i++) {
        step();
        if (i % 64 == 0)
            for (int at = 0; at < PLACES; at++) check(is_as_modelled(at), "no other buffer has changed");
    }
    for (int at = 0; at < PLACES; at++)
        if (skbs[at].made) end(at);
    check(offload_pool_home(&pool) == BLOCKS, "all blocks are home");
    offload_pool_free(&pool);
    check(count < 10000 || (seen[OFFLOAD_OK] && seen[OFFLOAD_USAGE] && seen[OFFLOAD_POOL_EMPTY] && seen[OFFLOAD_NOT_SOLE] && seen[OFFLOAD_NO_ROOM]),
          "each status is answered at least once");
}

/* ---- each allocation refused in turn */

/* Some calls of each kind; how many were answered NO_MEMORY. All blocks come home in the end. */
static int refused(struct offload_pool *some) {
    struct offload_skb a = {0}, b = {0}, c = {0};
    int count = 0;
    if (offload_pool_new(some, 4) != OFFLOAD_OK) return 1;
    if (offload_skb_new(some, &a, 64) != OFFLOAD_OK) count++;
    if (a.made) check(offload_skb_put_tail(&a, text("hello world"), 11) == OFFLOAD_OK, "put");
    if (a.made && offload_skb_clone(&a, &b) == OFFLOAD_NO_MEMORY) count++;
    check(!a.made || has(&a, "hello world"), "the clone's buffer is as it was");
    if (a.made) {
        struct offload_skb d = {0};
        uint32_t status = offload_skb_copy(some, &a, &d);
        check(status == OFFLOAD_OK || (status == OFFLOAD_NO_MEMORY && offload_pool_home(some) == 3), "copied or not");
        count += status == OFFLOAD_NO_MEMORY;
        if (d.made) check(has(&d, "hello world") && offload_skb_release(some, &d) == OFFLOAD_OK, "a copy");
    }
    if (a.made && offload_skb_split_at(some, &a, 5, &c) == OFFLOAD_NO_MEMORY) count++;
    check(!a.made || has(&a, c.made ? "hello" : "hello world"), "the buffer that is cut");
    check(!c.made || has(&c, " world"), "what is behind the cut");
    if (b.made && c.made) {
        uint32_t status = offload_skb_attach(some, &c, &b);
        check(status == OFFLOAD_OK || status == OFFLOAD_NO_MEMORY, "attached or not");
        count += status == OFFLOAD_NO_MEMORY;
        check(has(&c, b.made ? " world" : " worldhello world") && (!b.made || has(&b, "hello world")), "both are as they were");
    }
    if (a.made) check(offload_skb_unshare(some, &a) == OFFLOAD_OK && offload_skb_push(&a, text("!"), 1) == OFFLOAD_OK, "written");
    left = -1;
    if (a.made) check(offload_skb_release(some, &a) == OFFLOAD_OK, "released");
    if (b.made) check(offload_skb_release(some, &b) == OFFLOAD_OK, "released");
    if (c.made) check(offload_skb_release(some, &c) == OFFLOAD_OK, "released");
    check(offload_pool_home(some) == 4, "all blocks are home though memory was refused");
    return count;
}

static void memory(void) {
    for (long granted = 0;; granted++) {
        struct offload_pool some = {0};
        left = granted;
        asked = 0;
        int count = refused(&some);
        left = -1;
        check(some.made || count, "a pool, or no memory");
        offload_pool_free(&some);
        if (asked <= granted) {
            check(!count, "with all memory nothing is refused");
            break;
        }
        check(count == 1, "what is refused is told, once");
    }
}

/* A block that is shared too often is told to be copied, and nothing is lost. */
static void worn(void) {
    struct offload_pool some = {0};
    struct offload_skb a = {0}, b = {0};
    long count = 0;
    check(offload_pool_new(&some, 4) == OFFLOAD_OK && offload_skb_new(&some, &a, 64) == OFFLOAD_OK, "a buffer");
    check(offload_skb_put_tail(&a, text("abc"), 3) == OFFLOAD_OK, "its bytes");
    while (count < 1000000 && offload_skb_clone(&a, &b) == OFFLOAD_OK) {
        check(offload_skb_release(&some, &b) == OFFLOAD_OK, "a clone is released");
        count++;
    }
    check(count > 10000 && count < 1000000 && has(&a, "abc"), "it wears in the end");
    check(offload_skb_unshare(&some, &a) == OFFLOAD_OK && offload_skb_clone(&a, &b) == OFFLOAD_OK && has(&b, "abc"), "until it is unshared");
    check(offload_skb_release(&some, &a) == OFFLOAD_OK && offload_skb_release(&some, &b) == OFFLOAD_OK && offload_pool_home(&some) == 4, "home");
    offload_pool_free(&some);
}

/* ---- clones that another thread reads and releases, while this one releases what they were made of */

enum { SHARED = 1000 };

static struct offload_skb clones[SHARED];

static void *other_thread(void *is_right) {
    struct offload_pool own = {0};
    *(int *)is_right = offload_pool_new(&own, 1) == OFFLOAD_OK;
    for (int i = 0; i < SHARED; i++) *(int *)is_right &= has(&clones[i], "abc") && offload_skb_release(&own, &clones[i]) == OFFLOAD_OK;
    *(int *)is_right &= offload_pool_home(&own) == 1;
    offload_pool_free(&own);
    return NULL;
}

static void threads(void) {
    static struct offload_skb own[SHARED];
    struct offload_pool some = {0};
    pthread_t other;
    int is_right = 0;
    check(offload_pool_new(&some, SHARED) == OFFLOAD_OK, "a pool");
    for (int i = 0; i < SHARED; i++)
        check(offload_skb_new(&some, &own[i], 64) == OFFLOAD_OK && offload_skb_put_tail(&own[i], text("abc"), 3) == OFFLOAD_OK &&
                  offload_skb_clone(&own[i], &clones[i]) == OFFLOAD_OK, "a clone for another thread");
    check(!pthread_create(&other, NULL, other_thread, &is_right), "a thread");
    for (int i = 0; i < SHARED; i++) check(has(&own[i], "abc") && offload_skb_release(&some, &own[i]) == OFFLOAD_OK, "released beside");
    pthread_join(other, NULL);
    check(is_right, "clones that another thread has");
    offload_pool_free(&some);
}

int main(int count, char **words) {
    numbers();
    memory();
    worn();
    threads();
    steps(count > 1 ? atol(words[1]) : 100000, count > 2 ? strtoull(words[2], NULL, 0) : 0x9e3779b97f4a7c15u);
    if (!wrong) printf("buffers: ok\n");
    return wrong;
}
