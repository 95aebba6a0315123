/* Serves the traps on standard input as the firmware does, and exits with the number that says how the loop ended. */
#include <stdint.h>

int64_t pmpmon_serve(void);

int main(void)
{
    return (int)pmpmon_serve();
}
