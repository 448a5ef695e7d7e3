/* The library from C: an argument of a call is protected, so a write through another pointer is refused while the
   call lasts. First request by request on a memory of our own, then a whole run as one list, and last the end of a
   memory with 16-bit pointers. */
#include <inttypes.h>
#include <stdio.h>
#include <stdlib.h>

#include "tree_borrows.h"

static tree_borrows_memory memory;
static tree_borrows_entry frame[TREE_BORROWS_ENTRIES];
static uint8_t area[TREE_BORROWS_AREA];

/* Says what came back, and stops where it is not what the example is about. */
static void expect(const char *what, tree_borrows_reply reply, int refusal) {
    if (reply.gives == TREE_BORROWS_POINTER)
        printf("%s: %d, %" PRIu64 ".%" PRIu64 "\n", what, reply.refusal, reply.first, reply.second);
    else
        printf("%s: %d\n", what, reply.refusal);
    if (reply.refusal != refusal) {
        printf("expected %d\n", refusal);
        exit(1);
    }
}

/* The pointer that a reply gives. */
static tree_borrows_pointer given(tree_borrows_reply reply, uint64_t address) {
    tree_borrows_pointer p = {address, 1, (uint32_t)reply.first, (uint32_t)reply.second};
    return p;
}

static void request_by_request(void) {
    const uint32_t one[] = {0x80000001}, two[] = {0x80000002};
    const uint32_t layout_of_u8[] = {0x00000000, 0x00000001};
    const tree_borrows_retag_settings argument = {TREE_BORROWS_MUTABLE_REFERENCE, 1, 1, 1};
    tree_borrows_reply reply;
    tree_borrows_retag_reply made;
    tree_borrows_pointer root, x;
    uint32_t loaded[1];
    size_t count;

    memory.width = 64;
    expect("new", tree_borrows_new(TREE_BORROWS_LENT(&memory)), TREE_BORROWS_ACCEPTED);
    reply = tree_borrows_allocate(TREE_BORROWS_LENT(&memory), TREE_BORROWS_HEAP, 1, 0, 0x10);
    expect("allocate", reply, TREE_BORROWS_ACCEPTED);
    root = given(reply, 0x10);

    made = tree_borrows_new_call(frame, TREE_BORROWS_ENTRIES);
    expect("new call", made.reply, TREE_BORROWS_ACCEPTED);
    count = made.count;
    made = tree_borrows_retag(frame, TREE_BORROWS_ENTRIES, count, TREE_BORROWS_LENT(&memory), layout_of_u8, 2, root,
                              argument);
    expect("retag", made.reply, TREE_BORROWS_ACCEPTED);
    x = given(made.reply, 0x10);
    count = made.count;

    expect("store through the argument", tree_borrows_store(TREE_BORROWS_LENT(&memory), x, one, 1, 0),
           TREE_BORROWS_ACCEPTED);
    expect("store through the root", tree_borrows_store(TREE_BORROWS_LENT(&memory), root, two, 1, 0),
           TREE_BORROWS_FOREIGN_WRITE_OF_UNIQUE);
    expect("end call", tree_borrows_end_call(frame, TREE_BORROWS_ENTRIES, count, TREE_BORROWS_LENT(&memory), area,
                                             TREE_BORROWS_AREA),
           TREE_BORROWS_ACCEPTED);
    expect("store through the root", tree_borrows_store(TREE_BORROWS_LENT(&memory), root, two, 1, 0),
           TREE_BORROWS_ACCEPTED);

    reply = tree_borrows_load(TREE_BORROWS_LENT(&memory), root, 1, 0);
    expect("load", reply, TREE_BORROWS_ACCEPTED);
    if (tree_borrows_load_view(memory.words, TREE_BORROWS_WORDS, reply, loaded, 1) != 1 || loaded[0] != two[0])
        exit(1);
    printf("loaded: %08" PRIx32 "\n", loaded[0]);

    reply = tree_borrows_leak_check(TREE_BORROWS_LENT(&memory));
    expect("leak check", reply, TREE_BORROWS_MEMORY_LEAK);
    printf("leaks: allocation %" PRIu64 "\n", reply.first);
    expect("deallocate", tree_borrows_deallocate(TREE_BORROWS_LENT(&memory), root, TREE_BORROWS_HEAP, 1, 0),
           TREE_BORROWS_ACCEPTED);
    expect("leak check", tree_borrows_leak_check(TREE_BORROWS_LENT(&memory)), TREE_BORROWS_ACCEPTED);
}

/* The same run as one list. The words are those of docs/FORMAT.md. */
static void as_one_list(void) {
    const uint32_t requests[] = {
        0x00000001, 0, 0x10, 1,                      /* allocate: 0.0 */
        0x50000000, 0, 0, 0,                         /* new call, frame 0 */
        0x40000101, 0, 0x10, 0xe0000002, 0, 1,       /* &mut of the byte as an argument: 0.1 */
        0x30000300, 0, 0x10, 1, 0x80000001,          /* store through 0.1 */
        0x30000100, 0, 0x10, 1, 0x80000002,          /* store through 0.0: refused */
        0x60000000, 0, 0, 0,                         /* end call */
        0x20000300, 0, 0x10, 1,                      /* load through 0.1 */
        0x90000000, 0, 0, 0,                         /* leak check: refused, and names allocation 0 */
    };
    const uint32_t ends[] = {4, 8, 14, 19, 24, 28, 32, 36};
    const uint32_t refusals[] = {0, 0, 0, 0, TREE_BORROWS_FOREIGN_WRITE_OF_UNIQUE, 0, 0, TREE_BORROWS_MEMORY_LEAK};
    static uint32_t frames[TREE_BORROWS_FRAMES];
    uint32_t answers[8 * 5 + 1];
    const uint32_t *answer = answers;
    tree_borrows_list_reply list;
    size_t i;

    list = tree_borrows_run_list(TREE_BORROWS_BUFFERS(&memory), frames, TREE_BORROWS_FRAMES, requests, 36, ends, 8, answers,
                                 8 * 5 + 1);
    if (list.refusal != TREE_BORROWS_ACCEPTED || !list.whole || list.at != 8 * 5 + 1 || list.width != 64)
        exit(1);
    printf("list:");
    for (i = 0; i < 8; i++) {
        printf(" %" PRIu32, answer[0]);
        if (answer[0] != refusals[i])
            exit(1);
        if (answer[0] == TREE_BORROWS_MEMORY_LEAK && (answer[1] != TREE_BORROWS_LEAK || answer[2] != 0))
            exit(1);
        answer += 5 + answer[4];
    }
    printf("\n");
}

/* Firmware with 16-bit pointers: what lies at the end of its memory. */
static void narrow(void) {
    const uint32_t third_byte_of_a_pointer[] = {0xd0000000};
    tree_borrows_reply reply;
    tree_borrows_pointer root;

    memory.width = 16;
    expect("new, 16 bits", tree_borrows_new(TREE_BORROWS_LENT(&memory)), TREE_BORROWS_ACCEPTED);
    expect("allocate up to 0x10000", tree_borrows_allocate(TREE_BORROWS_LENT(&memory), TREE_BORROWS_GLOBAL, 16, 0, 0xfff0),
           TREE_BORROWS_FAILS_PICK);
    reply = tree_borrows_allocate(TREE_BORROWS_LENT(&memory), TREE_BORROWS_GLOBAL, 15, 0, 0xfff0);
    expect("allocate up to 0xffff", reply, TREE_BORROWS_ACCEPTED);
    root = given(reply, 0xfff0);
    expect("store the third byte of a pointer",
           tree_borrows_store(TREE_BORROWS_LENT(&memory), root, third_byte_of_a_pointer, 1, 0), TREE_BORROWS_MALFORMED);
    root.address = 0x10000;
    expect("load nothing at 0x10000", tree_borrows_load(TREE_BORROWS_LENT(&memory), root, 0, 0), TREE_BORROWS_MALFORMED);
    expect("leak check", tree_borrows_leak_check(TREE_BORROWS_LENT(&memory)), TREE_BORROWS_ACCEPTED);
    memory.width = 24;
    expect("leak check, 24 bits", tree_borrows_leak_check(TREE_BORROWS_LENT(&memory)), TREE_BORROWS_NOT_WELL_FORMED);
}

int main(void) {
    request_by_request();
    as_one_list();
    narrow();
    return 0;
}
