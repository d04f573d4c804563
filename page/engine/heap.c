// The heap of an engine. Blocks come in classes of sizes, four to each doubling. One that is freed waits in the list of its class.
#include "types.h"

extern byte __heap_base;

enum { PAGE = 65536, HEAD = 16, CLASSES = 256 };

// What stands before each block. It takes sixteen bytes, so that blocks are aligned as the program asks for at most.
struct head {
    size room;
    struct head *next;
};

struct tried {
    size is_there;
    void *block;
};

static struct head *waiting[CLASSES];
static byte *unused;
static byte nothing[HEAD];

// Rounds a size up to that of a class. The number of the class goes to `class`.
static size room_of(size wanted, size *class) {
    if (wanted <= 4 * HEAD) {
        size units = wanted ? (wanted + HEAD - 1) / HEAD : 1;
        *class = units;
        return units * HEAD;
    }
    size doubling = 63 - (size)__builtin_clzl(wanted - 1);
    size step = (size)1 << (doubling - 2);
    size steps = (wanted + step - 1) / step;
    *class = 4 * doubling + steps;
    return steps * step;
}

// Whether the memory reaches to an address, when it has grown where it must.
static int reaches(size end) {
    size pages = __builtin_wasm_memory_size(0);
    if (end <= pages * PAGE) return 1;
    size lacking = (end - pages * PAGE + PAGE - 1) / PAGE;
    size ample = lacking + pages / 8;
    return __builtin_wasm_memory_grow(0, ample) != (size)-1 || __builtin_wasm_memory_grow(0, lacking) != (size)-1;
}

static void *take(size wanted) {
    size class;
    if (wanted >> 32) return 0;
    size room = room_of(wanted, &class);
    struct head *head = waiting[class];
    if (head) {
        waiting[class] = head->next;
        return head + 1;
    }
    if (!unused) unused = (byte *)(((size)&__heap_base + HEAD - 1) / HEAD * HEAD);
    if (!reaches((size)unused + HEAD + room)) return 0;
    head = (struct head *)unused;
    head->room = room;
    unused += HEAD + room;
    return head + 1;
}

static void give_back(void *block) {
    struct head *head = (struct head *)block - 1;
    size class;
    room_of(head->room, &class);
    head->next = waiting[class];
    waiting[class] = head;
}

static struct tried told(void *block) { return (struct tried){block != 0, block ? block : nothing}; }

struct tried rattle_alloc(size wanted, size alignment) {
    (void)alignment;
    return told(take(wanted));
}

// Resizes a block, of which the first `kept` bytes stay. It moves where it has no room, or would keep four times as much as it needs.
struct tried rattle_realloc(void *block, size kept, size wanted, size alignment) {
    (void)alignment;
    size room = ((struct head *)block - 1)->room;
    if (wanted <= room && (wanted > room / 4 || room <= 4 * HEAD)) return told(block);
    void *moved = take(wanted);
    if (!moved) return told(0);
    __builtin_memcpy(moved, block, kept < wanted ? kept : wanted);
    give_back(block);
    return told(moved);
}

void rattle_dealloc(void *block) { give_back(block); }
