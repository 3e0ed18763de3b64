/* Structs and arrays that a compiler copies, clears and compares by calls of memcpy and memset where it likes: a struct is handed over
   and returned whole, an array is filled with zeros, one struct is assigned to another. Hart 0 puts out the kinds of the messages that it
   finds, A B C D, then C E, and ends with the sum of what the first four hold, hart 1 with the next letter each. */
#include "hart.h"
#include <string.h>

struct message {
    uint8_t kind;
    uint16_t length;
    char text[61];
    uint32_t numbers[20];
};

struct ring {
    struct message slots[4];
    uint32_t first, count;
};

__attribute__((noinline)) static struct message made(uint8_t kind, uint32_t start)
{
    struct message message = {0};
    message.kind = kind;
    message.length = 61;
    for (uint32_t k = 0; k < 61; k++)
        message.text[k] = (char)('a' + k % 26);
    for (uint32_t k = 0; k < 20; k++)
        message.numbers[k] = start + k;
    return message;
}

__attribute__((noinline)) static uint32_t sum_of(struct message message)
{
    uint32_t sum = message.kind + message.length;
    for (uint32_t k = 0; k < 61; k++)
        sum += (uint8_t)message.text[k];
    for (uint32_t k = 0; k < 20; k++)
        sum += message.numbers[k];
    /* The copy is this function's own. */
    memset(&message, 0, sizeof message);
    return sum;
}

__attribute__((noinline)) static void push(struct ring *ring, const struct message *message)
{
    ring->slots[(ring->first + ring->count++) % 4] = *message;
}

__attribute__((noinline)) static struct message pop(struct ring *ring)
{
    struct message oldest = ring->slots[ring->first];
    ring->first = (ring->first + 1) % 4;
    ring->count--;
    return oldest;
}

uint32_t run_hart(uint32_t hart, uint32_t harts)
{
    struct ring ring = {0};
    uint32_t sum = 0;
    (void)harts;
    /* Six messages through four slots: those from the fifth on overwrite the first. */
    for (uint32_t k = 0; k < 6; k++) {
        struct message message = made((uint8_t)('A' + hart + k), k);
        push(&ring, &message);
        memset(&message, 0xff, sizeof message);
        if (ring.count == 3) {
            struct message oldest = pop(&ring);
            put_byte(oldest.kind);
            sum += sum_of(oldest);
        }
    }
    /* What the slots hold now: E, F, C, D. Each is moved one slot on, so that the first stands there twice. */
    memmove(ring.slots + 1, ring.slots, 3 * sizeof ring.slots[0]);
    put_byte(ring.slots[3].kind);
    put_byte(ring.slots[1].kind);
    if (memcmp(ring.slots[0].numbers, ring.slots[1].numbers, sizeof ring.slots[0].numbers) != 0)
        return 1;
    if (memcmp(ring.slots[1].numbers, ring.slots[2].numbers, sizeof ring.slots[0].numbers) >= 0)
        return 2;
    return sum;
}
