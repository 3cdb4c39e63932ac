/* The library with one fault, to see that the driver finds it: the environment's FAULT says which, 1 to 13. Linked with
 * -Wl,--wrap=sefgrunn_roff,--wrap=sefgrunn_write, so that the driver's calls come here. */
#include "sefgrunn.h"

#include <stdlib.h>

uint32_t __real_sefgrunn_roff(const uint8_t *document, size_t n, uint8_t *room, size_t room_len, size_t *at);
uint32_t __wrap_sefgrunn_roff(const uint8_t *document, size_t n, uint8_t *room, size_t room_len, size_t *at);
uint32_t __real_sefgrunn_write(uint8_t *room, size_t room_len, size_t *length, uint32_t style, const uint8_t *text, size_t n,
    size_t *place);
uint32_t __wrap_sefgrunn_write(uint8_t *room, size_t room_len, size_t *length, uint32_t style, const uint8_t *text, size_t n,
    size_t *place);

static int which(void)
{
    const char *fault = getenv("FAULT");
    return fault == NULL ? 0 : atoi(fault);
}

uint32_t __wrap_sefgrunn_roff(const uint8_t *document, size_t n, uint8_t *room, size_t room_len, size_t *at)
{
    volatile uint8_t read;
    size_t unwritten = *at;
    uint32_t number = __real_sefgrunn_roff(document, n, room, room_len, at);
    bool text = number == 0 && *at > 0;

    switch (n > 0 && room_len > 0 ? which() : 0) {
    case 1: /* reads behind the document */
        read = document[n];
        break;
    case 2: /* reads before it */
        read = document[-1];
        break;
    case 3: /* writes to it */
        ((uint8_t *)(uintptr_t)document)[n - 1] = 1;
        break;
    case 4: /* writes behind the room */
        room[room_len] = 0;
        break;
    case 5: /* writes before it */
        room[-1] = 0;
        break;
    case 6: /* leaves the last byte of the room as it was, where the text ends before it */
        room[room_len - 1] = number == 0 && *at < room_len ? 0xEE : room[room_len - 1];
        break;
    case 7: /* leaves a byte after a refusal */
        room[0] = number != 0 ? 0xEE : room[0];
        break;
    case 8: /* says a length over the room */
        *at = number == 0 ? room_len + 1 : *at;
        break;
    case 9: /* says no length */
        *at = number == 0 ? unwritten : *at;
        break;
    case 10: /* writes what is not UTF-8 */
        room[0] = text ? 0xFF : room[0];
        break;
    default:
        break;
    }
    (void)read;
    return number;
}

uint32_t __wrap_sefgrunn_write(uint8_t *room, size_t room_len, size_t *length, uint32_t style, const uint8_t *text, size_t n,
    size_t *place)
{
    uint32_t number = __real_sefgrunn_write(room, room_len, length, style, text, n, place);

    switch (room_len > 0 ? which() : 0) {
    case 11: /* changes the room though it refuses */
        room[0] = (uint8_t)(number != 0 ? room[0] + 1 : room[0]);
        break;
    case 12: /* changes the length though it refuses */
        *length += number != 0;
        break;
    case 13: /* changes a byte behind the document */
        room[room_len - 1] = (uint8_t)(number == 0 && *length < room_len ? room[room_len - 1] + 1 : room[room_len - 1]);
        break;
    default:
        break;
    }
    return number;
}
