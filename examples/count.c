/* Counts the lines, words and bytes of standard input, and tells which byte value was seen most. It uses
   no library: it has its own system calls and its own heap. */

typedef unsigned int u32;

enum { READ = 63, WRITE = 64 };

static u32 system_call(u32 number, u32 a, u32 b, u32 c)
{
    register u32 a0 asm("a0") = a;
    register u32 a1 asm("a1") = b;
    register u32 a2 asm("a2") = c;
    register u32 a7 asm("a7") = number;
    asm volatile("ecall" : "+r"(a0) : "r"(a1), "r"(a2), "r"(a7) : "memory");
    return a0;
}

static char heap[65536] __attribute__((aligned(16)));
static char *heap_next = heap;

__attribute__((noinline)) void *malloc(u32 size)
{
    char *block = heap_next;
    u32 whole = (size + 15) & ~15u;
    if (size > sizeof heap || whole > (u32)(heap + sizeof heap - block))
        return 0;
    heap_next = block + whole;
    return block;
}

__attribute__((noinline)) void free(void *block)
{
    if (block == heap_next - 16)
        heap_next = block;
}

/* A byte value and how often it was seen, in a list by value. */
struct seen {
    struct seen *next;
    u32 value;
    u32 count;
};

static struct seen *all_seen;
static char piece[256];
static u32 totals[3];
static const char *names[3] = {" lines\n", " words\n", " bytes\n"};

static __attribute__((noinline)) void note(u32 value)
{
    struct seen **at = &all_seen;
    while (*at && (*at)->value < value)
        at = &(*at)->next;
    if (*at && (*at)->value == value) {
        (*at)->count++;
        return;
    }
    struct seen *fresh = malloc(sizeof *fresh);
    if (!fresh)
        return;
    fresh->next = *at;
    fresh->value = value;
    fresh->count = 1;
    *at = fresh;
}

static __attribute__((noinline)) void say(const char *text)
{
    u32 length = 0;
    while (text[length])
        length++;
    system_call(WRITE, 1, (u32)text, length);
}

static __attribute__((noinline)) void say_number(u32 number)
{
    char *digits = malloc(16);
    if (!digits)
        return;
    char *first = digits + 15;
    *first = 0;
    do {
        *--first = '0' + number % 10;
        number /= 10;
    } while (number);
    say(first);
    free(digits);
}

/* Stands where the linker is told to, perhaps out of reach of a `jal`. */
__attribute__((noinline, section(".far"))) u32 most_seen(void)
{
    u32 value = 0;
    u32 count = 0;
    for (struct seen *at = all_seen; at; at = at->next)
        if (at->count > count) {
            count = at->count;
            value = at->value;
        }
    return value;
}

static __attribute__((noinline)) void count_all(void)
{
    u32 length;
    u32 in_word = 0;
    while ((length = system_call(READ, 0, (u32)piece, sizeof piece)) != 0)
        for (u32 i = 0; i < length; i++) {
            u32 is_letter = piece[i] > ' ';
            totals[0] += piece[i] == '\n';
            totals[1] += is_letter & !in_word;
            totals[2]++;
            in_word = is_letter;
            note((unsigned char)piece[i]);
        }
}

/* The status of the program: 1 where there was no line. */
int main(void)
{
    count_all();
    for (u32 i = 0; i < 3; i++) {
        say_number(totals[i]);
        say(names[i]);
    }
    say_number(most_seen());
    say(" seen most\n");
    return totals[0] == 0;
}
