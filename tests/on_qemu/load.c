/* Loads the registers as firmware in C does: by the functions that `plan --format c --name compiled` prints, and with
   `--name above_in_c --first 3`. */
#include "registers.h"
#include "above.h"

void load_in_c(void);
void load_above_in_c(void);

void load_in_c(void)
{
    compiled_load();
}

void load_above_in_c(void)
{
    above_in_c_load();
}
