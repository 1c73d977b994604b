/* The numbers of answers, classes, services, phases and letters in document 01's words. */
#ifndef HOST_WORDS_H
#define HOST_WORDS_H

#include <stddef.h>
#include <stdint.h>

#include "khlongsit.h"

const char *answer_words(uint32_t answer);
const char *phase_word(enum khl_phase phase);
const char *form_word(enum khl_form form);

/* What a call of the line gave, in one line: the answer, its words, and what the report tells besides; cut to the room.
 */
void describe(char *line, size_t room, uint32_t answer, const uint8_t *report);

#endif
