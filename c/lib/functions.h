/* functions.h: how a function in assembler begins and ends: in a section of its own, so that one that nothing calls isn't
   linked, and with call frame information. A weak one gives way to the program's own. */
        .macro begins name, binding=globl
        .section .text.\name, "ax"
        .\binding \name
        .type \name, @function
\name:
        .cfi_startproc
        .endm

        .macro ends name
        .cfi_endproc
        .size \name, . - \name
        .endm
