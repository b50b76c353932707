/* Bytes as the rest of a line that can be read: 20 to 7E stand for themselves, but for `\`; any other is `\` and its two hex digits. */
#ifndef SHOWN_H
#define SHOWN_H

#include <stddef.h>
#include <stdint.h>
#include <stdio.h>

/* Whether a byte stands for itself. */
static int shown_plain(uint8_t byte) {
    return 0x20 <= byte && byte <= 0x7E && byte != '\\';
}

static int shown_digit(char c) {
    return '0' <= c && c <= '9' ? c - '0' : 'A' <= c && c <= 'F' ? c - 'A' + 10 : -1;
}

/* Turns such a text into its bytes, in its own memory: their number, or -1 where it is no such text. */
static ptrdiff_t shown_bytes(char *text, size_t length) {
    size_t made = 0;
    for (size_t i = 0; i < length; made++) {
        if (shown_plain((uint8_t)text[i])) {
            text[made] = text[i++];
            continue;
        }
        if (text[i] != '\\') {
            return -1;
        }
        int high = i + 2 < length ? shown_digit(text[i + 1]) : -1, low = i + 2 < length ? shown_digit(text[i + 2]) : -1;
        if (high < 0 || low < 0 || shown_plain((uint8_t)(16 * high + low))) {
            return -1;
        }
        text[made] = (char)(16 * high + low);
        i += 3;
    }
    return (ptrdiff_t)made;
}

/* Writes bytes so; `-` for none. */
static void show_bytes(const uint8_t *bytes, size_t length) {
    if (length == 0) {
        putchar('-');
    }
    for (size_t i = 0; i < length; i++) {
        if (shown_plain(bytes[i])) {
            putchar(bytes[i]);
        } else {
            printf("\\%02X", bytes[i]);
        }
    }
}

#endif
