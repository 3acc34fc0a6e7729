/* What a chip without an operating system begins with, and what it says: vectors, the start, faults, and semihosting. */
#include "board.h"
#include <stdint.h>

#define CPACR 0xE000ED88u
enum { SYS_WRITE0 = 0x04, SYS_EXIT_EXTENDED = 0x20, APPLICATION_EXIT = 0x20026, FAULT_STATUS = 3 };

int main(void);
void reset(void);
extern uint32_t stack_top; /* board.ld */

static void ask_host(uint32_t operation, const void *argument)
{
    register uint32_t r0 __asm__("r0") = operation;
    register const void *r1 __asm__("r1") = argument;
    __asm__ volatile("bkpt 0xab" : "+r"(r0) : "r"(r1) : "memory");
}

void say(const char *words)
{
    ask_host(SYS_WRITE0, words);
}

void say_number(unsigned long number)
{
    char digits[24], *first = digits + sizeof digits - 1;
    *first = '\0';
    do
        *--first = (char)('0' + number % 10);
    while ((number /= 10) != 0);
    say(first);
}

void leave(int status)
{
    const uint32_t why[] = {APPLICATION_EXIT, (uint32_t)status};
    ask_host(SYS_EXIT_EXTENDED, why);
    for (;;)
        ;
}

static void fault(void)
{
    say("the chip took a fault\n");
    leave(FAULT_STATUS);
}

void reset(void)
{
    *(volatile uint32_t *)CPACR |= 0xFu << 20; /* the compiler may use the registers of floats, which a chip starts without */
    leave(main());
}

__attribute__((section(".vectors"), used)) static const struct {
    uint32_t *stack;
    void (*handlers[15])(void);
} vectors = {&stack_top, {reset, fault, fault, fault, fault, fault, fault, fault, fault, fault, fault, fault, fault, fault, fault}};
