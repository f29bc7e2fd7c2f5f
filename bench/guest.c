// An endless workload for measuring: a matrix product, a hash of a table, a sort and divisions, over and over.
//
//     riscv64-unknown-elf-gcc -march=rv64im -mabi=lp64 -mcmodel=medany -O2 -ffreestanding -nostdlib -nostartfiles \
//         -fno-tree-loop-distribute-patterns -T guest.ld -o guest.elf guest_start.S guest.c
//     riscv64-unknown-elf-objcopy -O binary guest.elf guest.bin

typedef unsigned long u64;
typedef unsigned int u32;
typedef unsigned char u8;

enum { SIDE = 20, TABLE = 4096, KEYS = 200 };

static u64 left[SIDE * SIDE], right[SIDE * SIDE], product[SIDE * SIDE];
static u8 table[TABLE];
static u32 keys[KEYS];
volatile u64 digest;

static u64 multiply(u64 seed) {
    for (int i = 0; i < SIDE * SIDE; i++) {
        left[i] = seed * i + 5;
        right[i] = seed + 11 * i;
    }
    u64 all = 0;
    for (int i = 0; i < SIDE; i++)
        for (int j = 0; j < SIDE; j++) {
            u64 sum = 0;
            for (int k = 0; k < SIDE; k++)
                sum += left[i * SIDE + k] * right[k * SIDE + j];
            product[i * SIDE + j] = sum;
            all ^= sum + i;
        }
    return all;
}

// Fowler, Noll and Vo's hash, variant 1a.
static u64 hash(u64 seed) {
    u64 h = 0xcbf29ce484222325ul;
    for (int i = 0; i < TABLE; i++)
        table[i] = (u8)(seed >> (i & 31)) + i;
    for (int i = 0; i < TABLE; i++)
        h = (h ^ table[i]) * 0x100000001b3ul;
    return h;
}

static u64 sort(u64 seed) {
    u32 x = (u32)seed | 1;
    for (int i = 0; i < KEYS; i++) {
        x ^= x << 13;
        x ^= x >> 17;
        x ^= x << 5;
        keys[i] = x;
    }
    for (int i = 1; i < KEYS; i++) {
        u32 key = keys[i];
        int j = i;
        for (; j > 0 && keys[j - 1] > key; j--)
            keys[j] = keys[j - 1];
        keys[j] = key;
    }
    u64 all = 0;
    for (int i = 0; i < KEYS; i++)
        all = all * 31 + keys[i];
    return all;
}

static u64 divide(u64 seed) {
    u64 all = 0;
    for (u64 i = 1; i < 150; i++) {
        all += (seed | i) / i;
        all ^= (long)(seed ^ i) % (long)(i + 2);
    }
    return all;
}

void main(void) {
    u64 seed = 2026;
    for (;;) {
        seed = seed * 6364136223846793005ul + 1442695040888963407ul;
        digest += multiply(seed) ^ hash(seed) ^ sort(seed) ^ divide(seed);
    }
}
