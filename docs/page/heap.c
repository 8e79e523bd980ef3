/* The memory of the page: blocks one behind the other. A call gives back all that it took before
 * it returns, so the next one begins at the front again. Nothing proves this file. */
typedef __SIZE_TYPE__ size_t;
typedef unsigned long long half;
typedef unsigned __int128 wide;

struct rattle_tried {
    size_t ok;
    void *at;
};

extern unsigned char __heap_base;

/* The first bytes of the heap are JavaScript's. */
enum { ROOM = 4 << 20, ALIGNED = 16 };

static size_t used, blocks;

size_t page_room(void)
{
    return ((size_t)&__heap_base + ALIGNED - 1) & -(size_t)ALIGNED;
}

struct rattle_tried rattle_alloc(size_t size, size_t alignment)
{
    size_t first = page_room() + ROOM;
    size_t all = (__builtin_wasm_memory_size(0) << 16) - first;
    struct rattle_tried tried = { 0, &used };
    if (blocks == 0)
        used = 0;
    if (alignment > ALIGNED || size > all - used)
        return tried;
    tried = (struct rattle_tried){ 1, (void *)(first + used) };
    used += (size + ALIGNED - 1) & -(size_t)ALIGNED;
    if (used > all)
        used = all;
    blocks++;
    return tried;
}

/* A block that grows goes to the end. */
struct rattle_tried rattle_realloc(void *at, size_t kept, size_t size, size_t alignment)
{
    struct rattle_tried tried = rattle_alloc(size, alignment);
    if (tried.ok) {
        __builtin_memcpy(tried.at, at, kept);
        blocks--;
    }
    return tried;
}

void rattle_dealloc(void *at)
{
    (void)at;
    blocks--;
}

/* A product of 128 bits, by halves of 32 bits. The compiler calls it by this name. */
wide __multi3(wide a, wide b)
{
    half x = (half)a, y = (half)b, mask = 0xffffffff;
    half low = (x & mask) * (y & mask);
    half left = (x >> 32) * (y & mask) + (low >> 32);
    half right = (x & mask) * (y >> 32) + (left & mask);
    half high = (x >> 32) * (y >> 32) + (left >> 32) + (right >> 32);
    high += x * (half)(b >> 64) + (half)(a >> 64) * y;
    return (wide)high << 64 | (right << 32 | (low & mask));
}
