/* The Tree Borrows memory, for programs in C and C++ on x86-64: the functions of libtree_borrows.a, which
   `rt lib` in crates/tree_borrows writes to crates/tree_borrows/out.

   WHAT IS LENT. A memory is five buffers that the caller owns and lends for each call, and a width: how many bits
   a pointer has, 16, 32 or 64. The buffers' lengths are fixed, see below. All zeros, with a width, are the empty
   memory; docs/FORMAT.md says what the numbers in them mean, and a program may read them at any time. The library
   allocates nothing, keeps nothing from one call to the next, and touches nothing but what it is lent: several
   memories are several sets of buffers, each may be used by another thread, and a copy of the five buffers and the
   width is a copy of the memory.

   The width stands directly behind the five buffers in every function that takes a memory; only a list of requests
   has none, since it starts at 64 bits and may set another. Keep it with the memory. At width w an address is at most
   2^w - 1, and so is the end of an allocation, address + size; a pointer in memory has w / 8 bytes, whose positions
   count from 0. Any other width, and a memory that does not fit its width (an allocation, dead or live, that ends
   higher, or a byte word, of a dead one too, with a higher position), is refused with 1. An address above 2^w - 1 in a
   request, and a position from w / 8 on in the bytes of a store, is refused with 2; an allocation that would end
   higher, with 5.

   Every buffer is passed as its address and its length, counted in its own numbers and not in bytes. What is asked
   of the caller: an address is not null, not even at length 0, and is aligned for its type; that many numbers
   stand there, and nobody else uses them during the call; no two buffers of one call overlap. Whatever the numbers
   are, every function returns, and its reply and the contents of every buffer afterwards are determined and
   proved. A buffer without `const` may be written; after a refusal all are as they were, but for the working area
   of an end call.

   WHAT COMES BACK. A reply has the number of the refusal, or 0. docs/FORMAT.md says what each number means
   and what to look for first.

   WHAT IT COSTS. A function that makes one request tests first that all five buffers are well formed (refusal 1):
   some 18 microseconds, whatever the request. tree_borrows_run_list has no need of that, since it starts from the
   empty memory: once half a microsecond to empty it, and then some 10 to 100 nanoseconds for a small request. For
   long recordings use the list. */
#ifndef TREE_BORROWS_H
#define TREE_BORROWS_H

#include <stddef.h>
#include <stdint.h>

#ifdef __cplusplus
extern "C" {
#endif

/* ---- lengths: any other length is refused with 1 */

enum {
    TREE_BORROWS_ALLOCS = 1152,    /* 128 allocations of nine numbers */
    TREE_BORROWS_NODES = 1024,     /* parents, protectors */
    TREE_BORROWS_WORDS = 4096,
    TREE_BORROWS_CODES = 32768,
    TREE_BORROWS_ENTRIES = 64,     /* places of one lent frame */
    TREE_BORROWS_AREA = 32768,     /* working area of an end call */
    TREE_BORROWS_FRAMES = 2080     /* 32 frames of a list, 65 numbers each */
};

/* The five buffers and the width side by side, for programs that like them so: TREE_BORROWS_LENT(&memory) stands for
   the eleven arguments of a call, and TREE_BORROWS_BUFFERS(&memory) for the ten of the buffers alone, which
   tree_borrows_run_list takes. Set the width, and zero the rest or call tree_borrows_new. */
typedef struct tree_borrows_memory {
    uint64_t allocs[TREE_BORROWS_ALLOCS];
    uint16_t parents[TREE_BORROWS_NODES];
    uint8_t protectors[TREE_BORROWS_NODES];
    uint32_t words[TREE_BORROWS_WORDS];
    uint8_t codes[TREE_BORROWS_CODES];
    uint64_t width; /* 16, 32 or 64 */
} tree_borrows_memory;

#define TREE_BORROWS_BUFFERS(m)                                                                           \
    (m)->allocs, (size_t)TREE_BORROWS_ALLOCS, (m)->parents, (size_t)TREE_BORROWS_NODES, (m)->protectors, \
        (size_t)TREE_BORROWS_NODES, (m)->words, (size_t)TREE_BORROWS_WORDS, (m)->codes,                   \
        (size_t)TREE_BORROWS_CODES

#define TREE_BORROWS_LENT(m) TREE_BORROWS_BUFFERS(m), (m)->width

/* ---- numbers */

/* the kind of an allocation */
enum {
    TREE_BORROWS_STACK = 0,
    TREE_BORROWS_HEAP = 1,
    TREE_BORROWS_GLOBAL = 2,
    TREE_BORROWS_FUNCTION = 3,
    TREE_BORROWS_VTABLE = 4
};

/* the kind of a pointer, in a retag */
enum {
    TREE_BORROWS_SHARED_REFERENCE = 0,
    TREE_BORROWS_MUTABLE_REFERENCE = 1,
    TREE_BORROWS_BOX = 2,
    TREE_BORROWS_RAW_POINTER = 3,
    TREE_BORROWS_FUNCTION_POINTER = 4,
    TREE_BORROWS_VTABLE_POINTER = 5
};

/* what a reply gives */
enum {
    TREE_BORROWS_NOTHING = 0,
    TREE_BORROWS_POINTER = 1, /* first is its allocation, second its node */
    TREE_BORROWS_LOADED = 2,  /* first is where the loaded words start in `words`, second how many there are; at length
                                 0 both are 0 */
    TREE_BORROWS_LEAK = 3     /* first is the allocation that leaks, the lowest if there are several; second is 0 */
};

/* a reply's refusal */
enum {
    TREE_BORROWS_ACCEPTED = 0,
    TREE_BORROWS_NOT_WELL_FORMED = 1,
    TREE_BORROWS_MALFORMED = 2,
    TREE_BORROWS_WITHOUT_MASK = 3,
    TREE_BORROWS_NEVER_MADE = 4,
    TREE_BORROWS_FAILS_PICK = 5,
    TREE_BORROWS_MISALIGNED = 6,
    TREE_BORROWS_MISSING_PROVENANCE = 7,
    TREE_BORROWS_DEAD_ALLOCATION = 8,
    TREE_BORROWS_OUT_OF_BOUNDS = 9,
    TREE_BORROWS_AWAY_FROM_START = 10,
    TREE_BORROWS_ANOTHER_KIND = 11,
    TREE_BORROWS_ANOTHER_SIZE = 12,
    TREE_BORROWS_ANOTHER_ALIGNMENT = 13,
    TREE_BORROWS_BELOW_START = 14,
    TREE_BORROWS_SIZE_EXCEEDED = 15,
    TREE_BORROWS_NOT_PROTECTED = 16,
    TREE_BORROWS_LOCAL_READ_OF_DISABLED = 17,
    TREE_BORROWS_LOCAL_WRITE_OF_FROZEN = 18,
    TREE_BORROWS_LOCAL_WRITE_OF_DISABLED = 19,
    TREE_BORROWS_LOCAL_WRITE_OF_RESERVED = 20,
    TREE_BORROWS_FOREIGN_READ_OF_UNIQUE = 21,
    TREE_BORROWS_FOREIGN_WRITE_OF_READ = 22,
    TREE_BORROWS_FOREIGN_WRITE_OF_UNIQUE = 23,
    TREE_BORROWS_STRONG_PROTECTOR = 24,
    TREE_BORROWS_MEMORY_LEAK = 25,
    /* in place of 17, 18 and 19 when the node is protected */
    TREE_BORROWS_LOCAL_READ_OF_PROTECTED_DISABLED = 26,
    TREE_BORROWS_LOCAL_WRITE_OF_PROTECTED_FROZEN = 27,
    TREE_BORROWS_LOCAL_WRITE_OF_PROTECTED_DISABLED = 28
};

/* ---- what is handed over by value */

/* A pointer. `provenance` is 1 if it has one, else 0, and then allocation and node are 0 too; anything else is
   refused with 2, and so is an address that is too big for the width. */
typedef struct tree_borrows_pointer {
    uint64_t address;
    uint8_t provenance;
    uint32_t allocation;
    uint32_t node;
} tree_borrows_pointer;

/* A node that a call protects. */
typedef struct tree_borrows_entry {
    uint32_t allocation;
    uint32_t node;
} tree_borrows_entry;

/* What is retagged: the kind of the pointer, and three flags, each 0 or 1 (else 2). At function entry the pointer
   is an argument of the call whose frame is lent; unpin and freeze are what the pointee implements. */
typedef struct tree_borrows_retag_settings {
    uint32_t extra;
    uint8_t function_entry;
    uint8_t unpin;
    uint8_t freeze;
} tree_borrows_retag_settings;

/* An answer. */
typedef struct tree_borrows_reply {
    uint8_t refusal;
    uint8_t gives;
    uint64_t first;
    uint64_t second;
} tree_borrows_reply;

/* An answer, and how many entries the lent frame has then. Keep the count: it is an argument of the next call. */
typedef struct tree_borrows_retag_reply {
    tree_borrows_reply reply;
    size_t count;
} tree_borrows_retag_reply;

/* What a list comes to: `refusal` is 1 if a buffer has another length, else 0, and then `at` words of answers are
   written. `whole` is 1 if these are all; with 0 the rest found no room in the lent buffer. `width` is that of the
   memory that the list leaves, 16, 32 or 64, to go on with it; 0 after a refusal. */
typedef struct tree_borrows_list_reply {
    uint8_t refusal;
    uint8_t whole;
    size_t at;
    uint64_t width;
} tree_borrows_list_reply;

/* ---- new: the empty memory of this width, whatever the buffers held. 1 for another length of a buffer, or a width
   that is not 16, 32 or 64, and then nothing changes. */
tree_borrows_reply tree_borrows_new(
    uint64_t *allocs, size_t allocs_length, uint16_t *parents, size_t parents_length,
    uint8_t *protectors, size_t protectors_length, uint32_t *words, size_t words_length,
    uint8_t *codes, size_t codes_length, uint64_t width);

/* ---- one request each. `exponent` is an alignment's: 2 for 4 bytes. */

/* Makes an allocation of `size` bytes at `address`. Gives the pointer to its root. */
tree_borrows_reply tree_borrows_allocate(
    uint64_t *allocs, size_t allocs_length, const uint16_t *parents, size_t parents_length,
    const uint8_t *protectors, size_t protectors_length, const uint32_t *words, size_t words_length,
    uint8_t *codes, size_t codes_length, uint64_t width,
    uint64_t kind, uint64_t size, uint64_t exponent, uint64_t address);

/* Ends the allocation that starts at the pointer and has this kind, size and alignment. Gives nothing. */
tree_borrows_reply tree_borrows_deallocate(
    uint64_t *allocs, size_t allocs_length, const uint16_t *parents, size_t parents_length,
    const uint8_t *protectors, size_t protectors_length, const uint32_t *words, size_t words_length,
    uint8_t *codes, size_t codes_length, uint64_t width,
    tree_borrows_pointer pointer, uint64_t kind, uint64_t size, uint64_t exponent);

/* Reads `length` bytes. Gives where their words stand in `words`; they are the caller's own, and stay there until
   something is stored or allocated. */
tree_borrows_reply tree_borrows_load(
    const uint64_t *allocs, size_t allocs_length, const uint16_t *parents, size_t parents_length,
    const uint8_t *protectors, size_t protectors_length, const uint32_t *words, size_t words_length,
    uint8_t *codes, size_t codes_length, uint64_t width,
    tree_borrows_pointer pointer, uint64_t length, uint64_t exponent);

/* Copies the words that a load's reply names to the front of `out`, which stays as it is where it is too short.
   Answers how many there are; 0 for any other reply. */
size_t tree_borrows_load_view(
    const uint32_t *words, size_t words_length, tree_borrows_reply reply, uint32_t *out, size_t out_length);

/* Writes the bytes, a byte word for each. Gives nothing. */
tree_borrows_reply tree_borrows_store(
    const uint64_t *allocs, size_t allocs_length, const uint16_t *parents, size_t parents_length,
    const uint8_t *protectors, size_t protectors_length, uint32_t *words, size_t words_length,
    uint8_t *codes, size_t codes_length, uint64_t width,
    tree_borrows_pointer pointer, const uint32_t *bytes, size_t bytes_length, uint64_t exponent);

/* Makes a reference or box: a child of the pointer's node. Gives the new pointer, with the address of the old one;
   where no node is made, the old one (nothing, if it has no provenance). `layout` are the layout words of a run's
   retag, behind its fourth word. `entries` is a frame: 64 places, of which the first `count` are taken. A protected
   node is put behind them, and the count in the reply is one more. Any other retag leaves them, but they are lent too:
   another number of places, or a count above 64, is refused with 1. */
tree_borrows_retag_reply tree_borrows_retag(
    tree_borrows_entry *entries, size_t entries_length, size_t count,
    uint64_t *allocs, size_t allocs_length, uint16_t *parents, size_t parents_length,
    uint8_t *protectors, size_t protectors_length, const uint32_t *words, size_t words_length,
    uint8_t *codes, size_t codes_length, uint64_t width,
    const uint32_t *layout, size_t layout_length, tree_borrows_pointer pointer, tree_borrows_retag_settings settings);

/* Opens a frame: 64 places that are zero, whatever they held. The count is 0. 1 for another number of places, and then
   nothing changes. */
tree_borrows_retag_reply tree_borrows_new_call(tree_borrows_entry *entries, size_t entries_length);

/* Releases the protectors of the frame's first `count` entries. Gives nothing. `area` is a working area, whatever
   it holds; after each call that is not refused with 1 it is zero. The entries are left as they are: a frame
   whose call has ended is opened anew by tree_borrows_new_call before it is used again. */
tree_borrows_reply tree_borrows_end_call(
    const tree_borrows_entry *entries, size_t entries_length, size_t count,
    const uint64_t *allocs, size_t allocs_length, const uint16_t *parents, size_t parents_length,
    uint8_t *protectors, size_t protectors_length, const uint32_t *words, size_t words_length,
    uint8_t *codes, size_t codes_length, uint64_t width, uint8_t *area, size_t area_length);

/* Are `length` bytes from the pointer on inside a live allocation? Gives nothing; changes nothing. */
tree_borrows_reply tree_borrows_dereferenceable(
    const uint64_t *allocs, size_t allocs_length, const uint16_t *parents, size_t parents_length,
    const uint8_t *protectors, size_t protectors_length, const uint32_t *words, size_t words_length,
    const uint8_t *codes, size_t codes_length, uint64_t width, tree_borrows_pointer pointer, uint64_t length);

/* The same; a negative length asks for the bytes below the pointer, and not around address 0. */
tree_borrows_reply tree_borrows_signed_dereferenceable(
    const uint64_t *allocs, size_t allocs_length, const uint16_t *parents, size_t parents_length,
    const uint8_t *protectors, size_t protectors_length, const uint32_t *words, size_t words_length,
    const uint8_t *codes, size_t codes_length, uint64_t width, tree_borrows_pointer pointer, int64_t length);

/* Is no heap allocation live? 25 gives the one with the lowest number. Changes nothing. */
tree_borrows_reply tree_borrows_leak_check(
    const uint64_t *allocs, size_t allocs_length, const uint16_t *parents, size_t parents_length,
    const uint8_t *protectors, size_t protectors_length, const uint32_t *words, size_t words_length,
    const uint8_t *codes, size_t codes_length, uint64_t width);

/* ---- a list of requests, by their words, from the empty memory of 64 bits with no frame open: what the six buffers
   held is overwritten. A request of kind 15 empties the memory and sets another width; the reply has the last. It goes
   on after a refusal. `requests` are the words of all requests, one behind the other, and `ends`
   has for each request where its words end, so that request i is the words from ends[i - 1], or 0, up to ends[i].
   The answers go to `answers`, one behind the other: five words each (refusal or 0; TREE_BORROWS_NOTHING, _POINTER or
   _LEAK; first and second for that, as in a reply; the number of loaded words), and the loaded words. So five words
   for each request and one for each loaded byte are room enough. */
tree_borrows_list_reply tree_borrows_run_list(
    uint64_t *allocs, size_t allocs_length, uint16_t *parents, size_t parents_length,
    uint8_t *protectors, size_t protectors_length, uint32_t *words, size_t words_length,
    uint8_t *codes, size_t codes_length, uint32_t *frames, size_t frames_length,
    const uint32_t *requests, size_t requests_length, const uint32_t *ends, size_t ends_length,
    uint32_t *answers, size_t answers_length);

#ifdef __cplusplus
}
#endif

#endif
