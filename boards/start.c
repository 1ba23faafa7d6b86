/* What surrounds main on an emulated board: the entry, the memory set up, and what the C library asks of the system. Output
 * and end go to the emulator by semihosting, which Arm and RISC-V have alike but for the instruction. Any fault ends the
 * run. */
#include <stdint.h>
#include <stdio.h>
#include <stdlib.h>
#include <string.h>

#define FAULT 99 /* exit code of a run that faulted */

int main(void);
void _exit(int code);

/* The linker script's. */
extern char data_from[], data_start[], data_end[], bss_start[], bss_end[], stack_top[];

enum { OPEN = 1, WRITE = 5, EXIT = 0x20 };

/* Asks the emulator for something; words are what the request takes, each as wide as a pointer. Request and words, and then
 * the answer, are where a call has them. */
uintptr_t ask(uintptr_t request, const uintptr_t *words);

#if defined(__riscv)
/* The three instructions must be uncompressed and on one page. */
__asm__(".section .text.ask, \"ax\"\n"
        ".option push\n"
        ".option norvc\n"
        ".balign 16\n"
        "ask: slli zero, zero, 0x1f\n"
        "ebreak\n"
        "srai zero, zero, 7\n"
        "ret\n"
        ".option pop\n"
        ".text");
#else
__asm__(".section .text.ask, \"ax\"\n"
        ".thumb_func\n"
        "ask: bkpt 0xab\n"
        "bx lr\n"
        ".text");
#endif

void _exit(int code)
{
    const uintptr_t stopped = 0x20026; /* the program's own end, not an error of the emulator's */
    uintptr_t words[2];

    words[0] = stopped;
    words[1] = (uintptr_t)code;
    for (;;) ask(EXIT, words);
}

/* Writes to the emulator's standard output. */
static void put(const char *bytes, size_t count)
{
    static uintptr_t output;
    static const char console[] = ":tt";
    uintptr_t words[3];

    words[0] = (uintptr_t)console;
    words[1] = 4; /* to write */
    words[2] = sizeof console - 1;
    if (output == 0) output = ask(OPEN, words);
    words[0] = output;
    words[1] = (uintptr_t)bytes;
    words[2] = count;
    if (ask(WRITE, words) != 0) _exit(FAULT);
}

/* A clock that goes up; with the emulator's -icount it goes by the instructions. */
uint32_t ticks(void);

#if defined(__riscv)
uint32_t ticks(void)
{
    uint32_t x;

    __asm__ volatile(".option push\n.option arch, +zicsr\ncsrr %0, minstret\n.option pop" : "=r"(x));
    return x;
}

static void start_clock(void) {}
#else
/* The processor's 24-bit timer, which goes down. */
static volatile uint32_t *const timer = (volatile uint32_t *)0xE000E010;

uint32_t ticks(void) { return 0xFFFFFF - timer[2]; }

static void start_clock(void)
{
    timer[1] = 0xFFFFFF;
    timer[2] = 0;
    timer[0] = 5; /* on, by the processor's clock */
}
#endif

__attribute__((aligned(4), used)) static void fault(void) { _exit(FAULT); }

__attribute__((used)) static void start(void)
{
    memcpy(data_start, data_from, (size_t)(data_end - data_start));
    memset(bss_start, 0, (size_t)(bss_end - bss_start));
    setvbuf(stdout, NULL, _IONBF, 0); /* what was printed before a fault is seen */
    start_clock();
    exit(main());
}

#if defined(__riscv)

__asm__(".section .start, \"ax\"\n"
        ".option arch, +zicsr\n"
        "la sp, stack_top\n"
        "la t0, fault\n"
        "csrw mtvec, t0\n"
        "j start\n"
        ".text");

/* picolibc has its streams from the program, and puts byte by byte. */
static int put_byte(char byte, FILE *stream)
{
    (void)stream;
    put(&byte, 1);
    return (unsigned char)byte;
}

static FILE streams = FDEV_SETUP_STREAM(put_byte, NULL, NULL, _FDEV_SETUP_WRITE);
FILE *const stdout = &streams;
FILE *const stderr = &streams;

#else

/* newlib asks for these. Its streams are in the heap; for the library's five functions there is none. */
void *_sbrk(int more)
{
    static char heap[1024] __attribute__((aligned(8)));
    static size_t used;

    if (used + (size_t)more > sizeof heap) return (void *)-1;
    used += (size_t)more;
    return heap + used - more;
}

int _write(int file, const char *bytes, int count)
{
    (void)file;
    put(bytes, (size_t)count);
    return count;
}

static int none(void) { return -1; }

#define NONE __attribute__((alias("none")))
NONE int _close(void), _fstat(void), _isatty(void), _lseek(void), _read(void);

/* The first stack pointer, the entry, and the 14 other exceptions of the processor. */
__attribute__((section(".start"), used)) static const void *const vectors[16] = {
    stack_top, start, fault, fault, fault, fault, fault, fault, fault, fault, fault, fault, fault, fault, fault, fault,
};

#endif
