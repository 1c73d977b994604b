/* Gathers the card's code in one section, whose bounds the linker names __start_card_code and __stop_card_code. */
SECTIONS { card_code : { *(.text .text.*) } }
