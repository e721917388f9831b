/* Starts a program on a Cortex-M of qemu's boards mps2: the vectors that the processor reads at reset, and then newlib's start with semihosting, by
 * which the program prints, is given its arguments and ends. */
#include <stdint.h>

extern uint8_t stack_top[];
void _start(void);
void reset(void);
void fault(void);

void reset(void)
{
#ifdef __ARM_FP
    *(volatile uint32_t *)0xe000ed88 |= UINT32_C(0xf) << 20; /* CPACR: the floating-point unit is off at reset */
    __asm__ volatile("dsb\n isb");
#endif
#ifdef FREESTANDING
    *(volatile uint32_t *)0xe000ed14 |= UINT32_C(1) << 3; /* CCR: trap unaligned accesses. newlib makes some, the library is to make none */
#endif
    _start();
}

/* Every fault ends the program with the status of a failure: semihosting's exit, for a run-time error. */
void fault(void)
{
    __asm__ volatile("movs r0, #0x18\n ldr r1, =0x20023\n bkpt 0xab");
    for (;;) {
    }
}

/* The stack, the start, and the faults with the numbers 2 to 6. */
typedef void (*vector)(void);
__attribute__((section(".vectors"), used)) const struct {
    uint8_t *stack;
    vector entries[6];
} vectors = {stack_top, {reset, fault, fault, fault, fault, fault}};
