/* The tests, each a room of its own. */
#ifndef FACE_TESTS_H
#define FACE_TESTS_H

void test_parts(void);    /* parts.c: the header's accessors, at bytes counted by hand */
void test_cipher(void);   /* cipher.c: the bare cipher and MAC on published answers */
void test_receive(void);  /* receive.c: every class, its replies, reports and changes */
void test_letters(void);  /* letters.c: a KSM in every combination of errors, and behind every earlier answer */
void test_build(void);    /* build.c: key messages and requests for service */
void test_custody(void);  /* custody.c: start, load, remove, ask, give up */
void test_order(void);    /* order.c: the first answer whose condition holds, in every combination */
void test_images(void);   /* images.c: images that are not legal */
void test_exchange(void); /* exchange.c: two cards from end to end, on fixed bytes */
void test_stack(void);    /* stack.c: how deep each call goes */

#endif
