#include "words.h"

#include <inttypes.h>
#include <stdarg.h>
#include <stdio.h>

#define WORD(table, number) ((number) < sizeof table / sizeof *table ? table[number] : "unknown")

const char *answer_words(uint32_t answer) {
    static const char *const words[] = {
        "done",
        "text not a message",
        "RCV is not us",
        "partner not in the table",
        "error",
        "nothing is waiting",
        "no room",
        "a key message is already waiting",
        "next send count is 99,999,999",
        "64 entries in use",
        "identity malformed, our own, or taken",
        "key not of odd parity",
        "a field of the request malformed",
        "image not legal",
    };
    return WORD(words, answer);
}

const char *phase_word(enum khl_phase phase) {
    static const char *const words[] = {"idle", "waiting", "confirmed", "broken"};
    return WORD(words, phase);
}

const char *form_word(enum khl_form form) {
    static const char *const words[] = {"none", "single", "pair"};
    return WORD(words, form);
}

static const char *class_word(enum khl_class class) {
    static const char *const words[] = {"none", "RSI", "KSM", "RSM", "ESM"};
    return WORD(words, class);
}

static const char *service_word(enum khl_service service) {
    static const char *const words[] = {
        "none",  "one data key", "IV",  "KD",     "KD.IV",  "KK",        "KK.IV",
        "KK.KD", "KK.KD.IV",     "*KK", "*KK.IV", "*KK.KD", "*KK.KD.IV",
    };
    return WORD(words, service);
}

/* a line that is being written */
struct text {
    char *at;
    size_t room;
};

static void add(struct text *text, const char *format, ...) {
    va_list values;
    va_start(values, format);
    int length = vsnprintf(text->at, text->room, format, values);
    va_end(values);
    size_t step = length < 0 ? 0 : (size_t)length < text->room ? (size_t)length : text->room - 1;
    text->at += step;
    text->room -= step;
}

static void add_letters(struct text *text, unsigned letters) {
    add(text, " ");
    for (int i = 0; i < 9; i++)
        if (letters >> i & 1)
            add(text, "%c", "ABFIKMOPU"[i]);
}

void describe(char *line, size_t room, uint32_t answer, const uint8_t *report) {
    struct text text = {line, room};
    enum khl_class class = khl_report_class(report);
    add(&text, "%" PRIu32 " %s", answer, answer_words(answer));
    if (answer == KHL_ERROR)
        add_letters(&text, khl_report_letters(report));
    if (class != KHL_CLASS_NONE)
        add(&text, ": %s", class_word(class));
    if (class == KHL_CLASS_RSI)
        add(&text, " for %s", service_word(khl_report_service(report)));
    if (class == KHL_CLASS_ESM)
        add_letters(&text, khl_report_letters(report));
    if (khl_report_iv_present(report))
        add(&text, ", IV %016" PRIX64, khl_number(khl_report_iv(report), KHL_KEY));
    if (khl_report_date_present(report))
        add(&text, ", date %.*s", KHL_DATE, (const char *)khl_report_date(report));
}
