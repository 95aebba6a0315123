/* A program in supervisor mode with code, constants and variables. It counts to ten, and then turns the board off (SBI, legacy extension 8). */
const char digits[] = "0123456789";
int counter;
char seen[0x2000] = {1};

void _start(void)
{
    while (digits[counter])
        seen[counter++] = digits[counter];
    register long call asm("a7") = 8;
    asm volatile("ecall" : : "r"(call) : "memory");
    for (;;)
        ;
}
