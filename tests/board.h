/*
 * What tests/measure.c asks of the machine that it runs on: a stack of its own for a call, and a clock.
 *
 * Under an operating system the clock is the system's. On a bare board in qemu it is the processor's own counter: qemu lets it go on with the
 * instructions (tests/processors: -icount), and what it counts are these, not cycles.
 */
#ifndef BOARD_H
#define BOARD_H

#include <stddef.h>
#include <stdint.h>

#ifdef __linux__

#include <time.h>
#include <ucontext.h>

#define CLOCK "%.3f ms"
#ifndef ROUNDS
#define ROUNDS 40 /* 0 where the clock says nothing of the processor: in qemu */
#endif

static void on_stack(void (*make)(void), uint8_t *stack, size_t size)
{
    static ucontext_t outside, inside;
    (void)getcontext(&inside);
    inside.uc_stack.ss_sp = stack;
    inside.uc_stack.ss_size = size;
    inside.uc_link = &outside;
    makecontext(&inside, make, 0);
    (void)swapcontext(&outside, &inside);
}

static double elapsed(void (*make)(void))
{
    struct timespec before, after;
    (void)clock_gettime(CLOCK_MONOTONIC, &before);
    make();
    (void)clock_gettime(CLOCK_MONOTONIC, &after);
    return 1e3 * (double)(after.tv_sec - before.tv_sec) + 1e-6 * (double)(after.tv_nsec - before.tv_nsec);
}

#else

#define CLOCK "%.0f instructions"
#define ROUNDS 1 /* each takes as many */

/* Makes the call with the stack from this place down. */
__attribute__((naked, noinline)) static void from_top(void (*make)(void), uint8_t *top)
{
    (void)make;
    (void)top;
#ifdef __riscv
    __asm__ volatile("addi sp, sp, -16\n sw ra, 12(sp)\n sw s0, 8(sp)\n mv s0, sp\n mv sp, a1\n jalr a0\n"
                     "mv sp, s0\n lw s0, 8(sp)\n lw ra, 12(sp)\n addi sp, sp, 16\n ret");
#else
    __asm__ volatile("push {r4, lr}\n mov r4, sp\n mov sp, r1\n blx r0\n mov sp, r4\n pop {r4, pc}");
#endif
}

static void on_stack(void (*make)(void), uint8_t *stack, size_t size)
{
    from_top(make, stack + size - ((uintptr_t)stack + size) % 16);
}

#ifdef __riscv

static double elapsed(void (*make)(void))
{
    uint32_t before, after; /* a call is shorter than their range */
    __asm__ volatile("rdinstret %0" : "=r"(before));
    make();
    __asm__ volatile("rdinstret %0" : "=r"(after));
    return (double)(after - before);
}

#else

/* The timer SysTick counts 24 bits down at 25 MHz, once in 40 instructions of a nanosecond each. A call is shorter than its range. */
static double elapsed(void (*make)(void))
{
    volatile uint32_t *const timer = (volatile uint32_t *)0xe000e010; /* control, reload, current */
    uint32_t began;
    timer[1] = 0xffffff;
    timer[2] = 0;
    timer[0] = 5;
    while ((began = timer[2]) == 0) {
    }
    make();
    return 40.0 * (double)((began - timer[2]) & 0xffffff);
}

#endif

#endif

#endif
