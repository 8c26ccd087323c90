/* Counts the words of standard input and writes them in alphabetic order, each with its count. The words
   stand in a tree: a node for each word, and its text in a block of its own. All blocks come from `claim`,
   so only the calls of `claim` tell nodes from texts. It uses no library: its heap is its own. */

typedef unsigned int u32;

enum { READ = 63, WRITE = 64, EXIT = 93, LONGEST = 64 };

static u32 system_call(u32 number, u32 a, u32 b, u32 c)
{
    register u32 a0 asm("a0") = a;
    register u32 a1 asm("a1") = b;
    register u32 a2 asm("a2") = c;
    register u32 a7 asm("a7") = number;
    asm volatile("ecall" : "+r"(a0) : "r"(a1), "r"(a2), "r"(a7) : "memory");
    return a0;
}

/* The heap: each block stands behind a header, and a freed block waits in a list to be used again. */
struct header {
    u32 size;
    struct header *next;
};

static char heap[65536] __attribute__((aligned(16)));
static char *heap_next = heap;
static struct header *freed;

__attribute__((noinline)) void *malloc(u32 size)
{
    for (struct header **at = &freed; *at; at = &(*at)->next)
        if ((*at)->size >= size) {
            struct header *found = *at;
            *at = found->next;
            return found + 1;
        }
    u32 left = heap + sizeof heap - heap_next;
    if (left < sizeof(struct header) || size > left - sizeof(struct header))
        return 0;
    struct header *fresh = (struct header *)heap_next;
    fresh->size = (size + 7) & ~7u;
    heap_next += sizeof(struct header) + fresh->size;
    return fresh + 1;
}

__attribute__((noinline)) void free(void *block)
{
    if (!block)
        return;
    struct header *head = (struct header *)block - 1;
    head->next = freed;
    freed = head;
}

/* A block, or the end of the program with status 1 where there is none. */
static __attribute__((noinline)) void *claim(u32 size)
{
    void *block = malloc(size);
    if (!block)
        system_call(EXIT, 1, 0, 0);
    return block;
}

struct node {
    struct node *before;
    struct node *behind;
    char *text;
    u32 count;
};

static struct node *root;
static char word[LONGEST + 1];
static char piece[256];

static __attribute__((noinline)) char *copy_of(const char *text)
{
    u32 length = 0;
    while (text[length])
        length++;
    char *copy = claim(length + 1);
    for (u32 i = 0; i <= length; i++)
        copy[i] = text[i];
    return copy;
}

static __attribute__((noinline)) struct node *node_of(char *text)
{
    struct node *fresh = claim(sizeof *fresh);
    fresh->before = 0;
    fresh->behind = 0;
    fresh->text = text;
    fresh->count = 1;
    return fresh;
}

/* Counts the word that was read. */
static __attribute__((noinline)) void count_word(void)
{
    struct node **at = &root;
    while (*at) {
        const char *known = (*at)->text;
        u32 i = 0;
        while (word[i] && word[i] == known[i])
            i++;
        if (word[i] == known[i]) {
            (*at)->count++;
            return;
        }
        at = word[i] < known[i] ? &(*at)->before : &(*at)->behind;
    }
    *at = node_of(copy_of(word));
}

static __attribute__((noinline)) void say(const char *text)
{
    u32 length = 0;
    while (text[length])
        length++;
    system_call(WRITE, 1, (u32)text, length);
}

static __attribute__((noinline)) void say_number(u32 number)
{
    char digits[16];
    char *first = digits + 15;
    *first = 0;
    do {
        *--first = '0' + number % 10;
        number /= 10;
    } while (number);
    say(first);
}

/* Writes the words below a node, and frees them. Gives the number of these words. */
static __attribute__((noinline)) u32 say_all(struct node *at)
{
    if (!at)
        return 0;
    u32 words = say_all(at->before);
    say(at->text);
    say(" ");
    say_number(at->count);
    say("\n");
    words += 1 + say_all(at->behind);
    free(at->text);
    free(at);
    return words;
}

/* Reads all words; one of more than LONGEST letters is cut there. */
static __attribute__((noinline)) void read_words(void)
{
    u32 length;
    u32 letters = 0;
    while ((length = system_call(READ, 0, (u32)piece, sizeof piece)) != 0)
        for (u32 i = 0; i < length; i++)
            if (piece[i] > ' ') {
                if (letters < LONGEST)
                    word[letters++] = piece[i];
            } else if (letters) {
                word[letters] = 0;
                letters = 0;
                count_word();
            }
    if (letters) {
        word[letters] = 0;
        count_word();
    }
}

/* The status of the program: how many different words there were, modulo 256. */
int main(void)
{
    read_words();
    return say_all(root);
}
