/* The smallest host program: it calls the search and the number text, and nothing else. scripts/sizes.py links it and adds up what it takes. */
#include "../include/bolsterweft.h"

void smallest(const uint8_t *capture, size_t length, uint8_t room[BOLSTERWEFT_TEXT_ROOM], struct bolsterweft_found *found,
              struct bolsterweft_count *text) {
    *found = bolsterweft_search(BOLSTERWEFT_NIKOBUS, capture, length, 0);
    *text = bolsterweft_text((int64_t)found->start, 1, room, BOLSTERWEFT_TEXT_ROOM);
}
