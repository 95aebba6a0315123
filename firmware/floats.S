/*
 * Stores the 32 floating-point registers in memory and loads them: each in eight bytes, as doubles, or as singles on a hart without
 * doubles. The rest of the monitor does not use them.
 */
    .option arch, +d
    .macro  all_floats name, what
    .globl  \name
\name:
    .irp    n, 0, 1, 2, 3, 4, 5, 6, 7, 8, 9, 10, 11, 12, 13, 14, 15, 16, 17, 18, 19, 20, 21, 22, 23, 24, 25, 26, 27, 28, 29, 30, 31
    \what   f\n, 8 * \n(a0)
    .endr
    ret
    .endm

    .text
    all_floats keep_doubles, fsd
    all_floats load_doubles, fld
    all_floats keep_singles, fsw
    all_floats load_singles, flw
