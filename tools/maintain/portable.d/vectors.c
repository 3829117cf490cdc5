/* What a Cortex-M takes at its start: the end of its stack, and where it begins. Then the start of newlib does the rest. */
extern char stack_end;
void _start(void);
void reset(void);
extern const void *const vectors[];
__attribute__((section(".vectors"))) const void *const vectors[] = {&stack_end, (const void *)reset};

void reset(void) {
    *(volatile unsigned *)0xe000ed88 |= 0xfu << 20; /* CPACR: a floating-point unit may be used, if there is one */
    _start();
}
