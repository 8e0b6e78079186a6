// Numbers from a linear congruential generator, sorted by heapsort: the sum of each number by its place.
typedef unsigned int u32;
typedef unsigned long long u64;

enum { COUNT = 20000 };
static u64 numbers[COUNT];

static void sink(u32 root, u32 count) {
    for (;;) {
        u32 child = 2 * root + 1;
        if (child >= count) return;
        if (child + 1 < count && numbers[child] < numbers[child + 1]) child++;
        if (numbers[root] >= numbers[child]) return;
        u64 kept = numbers[root];
        numbers[root] = numbers[child];
        numbers[child] = kept;
        root = child;
    }
}

__attribute__((export_name("main"))) u64 run(void) {
    u64 seed = 1, sum = 0;
    for (u32 i = 0; i < COUNT; i++) {
        seed = seed * 6364136223846793005ULL + 1442695040888963407ULL;
        numbers[i] = seed >> 33;
    }
    for (u32 i = COUNT / 2; i-- > 0;) sink(i, COUNT);
    for (u32 count = COUNT; count-- > 1;) {
        u64 kept = numbers[0];
        numbers[0] = numbers[count];
        numbers[count] = kept;
        sink(0, count);
    }
    for (u32 i = 0; i < COUNT; i++) sum += numbers[i] * i;
    return sum;
}
