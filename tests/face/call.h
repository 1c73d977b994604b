/* Every call of the card on guarded buffers. After each call all is held that the header says of every call: lent
 * inputs and refused buffers as they were, replies and new images within their length, the report zero where it must
 * be. */
#ifndef FACE_CALL_H
#define FACE_CALL_H

#include "cards.h"

/* What the last call gave: its report, and the reply or new image. */
extern uint8_t report[KHL_REPORT];
extern uint8_t reply[KHL_IMAGE_MOST];
extern size_t reply_length;

/* With answer 0 the image is what the card made of it, or `made` the new one. Texts are bare and need no zero byte in
 * them. */
uint32_t receive(struct image *image, const void *text, size_t length, size_t room);
uint32_t build_ksm(struct image *image, const char *partner, const uint8_t *request, size_t length, size_t room);
uint32_t build_rsi(const struct image *image, const char *partner, const char *service, size_t room);
uint32_t ask(const struct image *image, const char *partner, size_t room);
uint32_t give_up(struct image *image, const char *partner);
uint32_t start(const char *own, size_t room, struct image *made);
uint32_t load(const struct image *image, const char *partner, const char *name, const uint8_t *key, size_t bytes,
              size_t room, struct image *made);
uint32_t take_out(const struct image *image, const char *partner, size_t room, struct image *made);

/* Holds the last answer to the wanted one. */
void answers(uint32_t answer, uint32_t wanted);

/* Holds the whole last report to its parts; no IV or date is a null pointer. */
void reports(unsigned letters, size_t length, enum khl_class class_read, enum khl_service service, const uint64_t *iv,
             const char *date);

/* Holds the last reply to a text. */
void replies(const char *text, size_t length);

/* Holds that every answer of every call was given at least once, and prints how often. */
void all_answers_given(void);

#endif
