#include "show.h"

#include <inttypes.h>
#include <stdio.h>

#include "keys.h"
#include "khlongsit.h"
#include "words.h"

/* a key's name without its blanks, or a dash where it has none */
static int name_length(const uint8_t *name) {
    int length = (int)khl_name_length(name);
    return length > 0 ? length : 1;
}
static const char *name_or_dash(const uint8_t *name) { return khl_name_length(name) > 0 ? (const char *)name : "-"; }

/* how many keys, and their names: one word, as 0, 1:PAYMENT1 or 2:PAYMENT1,- */
static void show_set(const uint8_t *set, int width) {
    char word[3 + 2 * (KHL_NAME + 1)];
    int length = snprintf(word, sizeof word, "%d", khl_set_count(set));
    for (int i = 0; i < khl_set_count(set); i++) {
        const uint8_t *name = khl_set_name(set, i);
        length += snprintf(word + length, sizeof word - (size_t)length, "%c%.*s", i == 0 ? ':' : ',', name_length(name),
                           name_or_dash(name));
    }
    printf("  %-*s", width, word);
}

void show_heading(void) {
    printf("%-16s  %-16s  %-6s  %-9s  %9s  %9s  %-16s  incoming\n", "partner", "key name", "form", "phase", "next send",
           "expected", "outgoing");
}

void show_row(const uint8_t *record) {
    printf("%.16s  %.16s  %-6s  %-9s  %9" PRIu32 "  %9" PRIu32, (const char *)khl_record_identity(record),
           (const char *)khl_record_name(record), form_word(khl_record_form(record)),
           phase_word(khl_record_phase(record)), khl_record_next(record), khl_record_expected(record));
    show_set(khl_record_outgoing(record), 16);
    show_set(khl_record_incoming(record), 0);
    putchar('\n');
}

static void show_keys(const char *what, const uint8_t *set) {
    printf("%-10s %d\n", what, khl_set_count(set));
    for (int i = 0; i < khl_set_count(set); i++) {
        const uint8_t *name = khl_set_name(set, i);
        printf("  key %d    %.*s, check value %06" PRIX32 "\n", i + 1, name_length(name), name_or_dash(name),
               check_value(khl_set_key(set, i), KHL_KEY));
    }
}

void show_entry(const uint8_t *record) {
    const uint8_t *identity = khl_record_identity(record), *name = khl_record_name(record);
    printf("partner    %.*s\n", name_length(identity), name_or_dash(identity));
    printf("key name   %.*s\n", name_length(name), name_or_dash(name));
    printf("form       %s\n", form_word(khl_record_form(record)));
    printf("phase      %s\n", phase_word(khl_record_phase(record)));
    printf("next send  %" PRIu32 "\n", khl_record_next(record));
    printf("expected   %" PRIu32 "\n", khl_record_expected(record));
    show_keys("outgoing", khl_record_outgoing(record));
    show_keys("incoming", khl_record_incoming(record));
}
