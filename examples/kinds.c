/* Takes two words at a time from standard input and writes what each kind of instruction of RV32I and M
   makes of them. It uses no library and no heap. */

typedef unsigned int u32;

enum { READ = 63, WRITE = 64 };

static u32 system_call(u32 number, u32 a, u32 b, u32 c)
{
    register u32 a0 asm("a0") = a;
    register u32 a1 asm("a1") = b;
    register u32 a2 asm("a2") = c;
    register u32 a7 asm("a7") = number;
    asm volatile("ecall" : "+r"(a0) : "r"(a1), "r"(a2), "r"(a7) : "memory");
    return a0;
}

/* One instruction with two registers, with a register and a constant, and with an address. */
#define REGISTERS(name, a, b) ({ u32 r; asm volatile(name " %0, %1, %2" : "=r"(r) : "r"(a), "r"(b)); r; })
#define CONSTANT(name, a, c) ({ u32 r; asm volatile(name " %0, %1, " #c : "=r"(r) : "r"(a)); r; })
#define UPPER(name) ({ u32 r; asm volatile(name " %0, 0xabcde" : "=r"(r)); r; })
#define LOAD(name, p) ({ u32 r; asm volatile(name " %0, 0(%1)" : "=r"(r) : "r"(p) : "memory"); r; })
#define STORE(name, v, p) asm volatile(name " %0, 0(%1)" : : "r"(v), "r"(p) : "memory")
#define TAKEN(name, a, b) ({ u32 r = 1; asm volatile(name " %1, %2, 1f\n\tli %0, 0\n1:" : "+r"(r) : "r"(a), "r"(b)); r; })

static u32 results[64];
static u32 count;
static char line[16];

static __attribute__((noinline)) void keep(u32 word)
{
    results[count++ & 63] = word;
}

static __attribute__((noinline)) void by_registers(u32 a, u32 b)
{
    keep(REGISTERS("add", a, b));
    keep(REGISTERS("sub", a, b));
    keep(REGISTERS("sll", a, b));
    keep(REGISTERS("slt", a, b));
    keep(REGISTERS("sltu", a, b));
    keep(REGISTERS("xor", a, b));
    keep(REGISTERS("srl", a, b));
    keep(REGISTERS("sra", a, b));
    keep(REGISTERS("or", a, b));
    keep(REGISTERS("and", a, b));
}

static __attribute__((noinline)) void by_products(u32 a, u32 b)
{
    keep(REGISTERS("mul", a, b));
    keep(REGISTERS("mulh", a, b));
    keep(REGISTERS("mulhsu", a, b));
    keep(REGISTERS("mulhu", a, b));
    keep(REGISTERS("div", a, b));
    keep(REGISTERS("divu", a, b));
    keep(REGISTERS("rem", a, b));
    keep(REGISTERS("remu", a, b));
}

static __attribute__((noinline)) void by_constants(u32 a, u32 b)
{
    keep(CONSTANT("addi", a, -5));
    keep(CONSTANT("slti", a, 100));
    keep(CONSTANT("sltiu", b, -1));
    keep(CONSTANT("xori", a, -1));
    keep(CONSTANT("ori", b, 0x70f));
    keep(CONSTANT("andi", b, 0x0f0));
    keep(CONSTANT("slli", a, 7));
    keep(CONSTANT("srli", a, 9));
    keep(CONSTANT("srai", a, 31));
    keep(UPPER("lui"));
    keep(UPPER("auipc"));
}

static __attribute__((noinline)) void by_memory(u32 a, u32 b)
{
    static u32 cells[2];
    STORE("sw", a, &cells[0]);
    STORE("sw", b, &cells[1]);
    STORE("sh", b, (char *)cells + 2);
    STORE("sb", a, (char *)cells + 5);
    asm volatile("fence" : : : "memory");
    keep(LOAD("lw", &cells[0]));
    keep(LOAD("lw", &cells[1]));
    keep(LOAD("lh", (char *)cells + 2));
    keep(LOAD("lhu", (char *)cells + 2));
    keep(LOAD("lb", (char *)cells + 5));
    keep(LOAD("lbu", (char *)cells + 5));
}

/* The EBREAK would stop the program, and is never reached. */
static __attribute__((noinline)) void by_branches(u32 a, u32 b)
{
    keep(TAKEN("beq", a, b) + 2 * TAKEN("bne", a, b));
    keep(TAKEN("blt", a, b) + 2 * TAKEN("bge", a, b));
    keep(TAKEN("bltu", a, b) + 2 * TAKEN("bgeu", a, b));
    asm volatile("j 1f\n\tebreak\n1:");
}

static void (*const kinds[])(u32, u32) = {by_registers, by_products, by_constants, by_memory, by_branches};

static __attribute__((noinline)) void say(u32 word)
{
    for (u32 i = 0; i < 8; i++) {
        u32 digit = word >> (28 - 4 * i) & 15;
        line[i] = digit < 10 ? '0' + digit : 'a' + digit - 10;
    }
    line[8] = '\n';
    system_call(WRITE, 1, (u32)line, 9);
}

/* The status of the program: how many pairs of words were there, modulo 256. */
int main(void)
{
    u32 pair[2];
    u32 pairs = 0;
    while (system_call(READ, 0, (u32)pair, 8) == 8) {
        count = 0;
        for (u32 k = 0; k < 5; k++)
            kinds[k](pair[0], pair[1]);
        for (u32 i = 0; i < count; i++)
            say(results[i]);
        pairs++;
    }
    return pairs;
}
