// Where a program begins over which GDB compiles (./compile): on a stack among the data, at an address of its own.
static char stack[2048] __attribute__((aligned(16), used));

__attribute__((naked, noreturn)) void _start(void)
{
    __asm__("lea stack+2048(%rip), %rsp\n\tcall main\n\tmov %eax, %edi\n\tmov $60, %eax\n\tsyscall");
}
