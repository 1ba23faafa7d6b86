/* write_words.h: words of a sheet to standard output, the highest byte first, as the programs replay and trace read them. */
#ifndef WRITE_WORDS_H
#define WRITE_WORDS_H

#include <stddef.h>
#include <stdint.h>
#include <stdio.h>

static void write_word(uint32_t w)
{
    putchar((int)(w >> 24));
    putchar((int)(w >> 16 & 255));
    putchar((int)(w >> 8 & 255));
    putchar((int)(w & 255));
}

/* Returns 0 if all were written. */
static int write_words(const uint32_t *words, size_t count)
{
    size_t i;

    for (i = 0; i < count; i++) write_word(words[i]);
    return fflush(stdout) ? 1 : 0;
}

#endif
