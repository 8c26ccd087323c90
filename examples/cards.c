/* Counts the words of standard input and writes them in alphabetic order, each with its count, by functions of C's
   library: `getchar`, `malloc`, `free`, `qsort`, `strcmp` and `printf`. The words stand in a list: a card for each
   word, and its text in a block of its own. All blocks come from `claim`, so only the calls of `claim` tell cards
   from texts. */

#include <ctype.h>
#include <stdio.h>
#include <stdlib.h>
#include <string.h>

enum { LONGEST = 64, HEAP = 1 << 16 };

struct card {
    struct card *next;
    char *text;
    unsigned count;
};

static struct card *cards;
static unsigned known;

/* The memory that the library's `malloc` takes its blocks from. The library's own `_sbrk` asks the system for it by
   brk, which answers 0 on halo's machines. */
void *_sbrk(int bytes)
{
    static char heap[HEAP] __attribute__((aligned(16)));
    static char *next = heap;
    if (bytes > heap + HEAP - next)
        return (void *)-1;
    next += bytes;
    return next - bytes;
}

/* A block, or the end of the program with status 1 where there is none. */
static __attribute__((noinline)) void *claim(size_t size)
{
    void *block = malloc(size);
    if (!block)
        exit(1);
    return block;
}

static __attribute__((noinline)) char *text_of(const char *word)
{
    return strcpy(claim(strlen(word) + 1), word);
}

static __attribute__((noinline)) struct card *card_of(const char *word)
{
    struct card *fresh = claim(sizeof *fresh);
    fresh->text = text_of(word);
    fresh->count = 0;
    fresh->next = cards;
    cards = fresh;
    known++;
    return fresh;
}

static __attribute__((noinline)) void count_word(const char *word)
{
    struct card *at = cards;
    while (at && strcmp(at->text, word))
        at = at->next;
    if (!at)
        at = card_of(word);
    at->count++;
}

/* Reads all words; one of more than LONGEST letters is cut there. */
static void read_words(void)
{
    char word[LONGEST + 1];
    unsigned letters = 0;
    for (int letter = getchar(); letter != EOF; letter = getchar())
        if (!isspace(letter)) {
            if (letters < LONGEST)
                word[letters++] = letter;
        } else if (letters) {
            word[letters] = 0;
            letters = 0;
            count_word(word);
        }
    if (letters) {
        word[letters] = 0;
        count_word(word);
    }
}

static int by_text(const void *left, const void *right)
{
    return strcmp((*(struct card *const *)left)->text, (*(struct card *const *)right)->text);
}

/* The status of the program: how many different words there were, modulo 256. */
int main(void)
{
    static char written[BUFSIZ]; /* so that no text is copied from one block to another, by `memmove` */
    setvbuf(stdout, written, _IOFBF, sizeof written);
    read_words();
    struct card **sorted = claim((known + 1) * sizeof *sorted);
    unsigned filled = 0;
    for (struct card *at = cards; at; at = at->next)
        sorted[filled++] = at;
    qsort(sorted, known, sizeof *sorted, by_text);
    for (unsigned i = 0; i < known; i++) {
        printf("%s %u\n", sorted[i]->text, sorted[i]->count);
        free(sorted[i]->text);
        free(sorted[i]);
    }
    free(sorted);
    return known & 255;
}
