# traps.S: what prints a line before a trap, and leaves all registers as the program had them. Its functions are called by gp,
# since the value of gp is known, so that it can be given back behind the call: `jal gp, rvmc_null_pointer`, as start.S and
# rvmc-cc have it. What C may change stands on the stack meanwhile. A stack that has no room for it is full, and the store traps
# for that.
#include "functions.h"
        .cfi_sections .debug_frame
        .set KEPT, 144

        # an instruction for each register but ra and gp
        .macro for_each instruction
        .set at, 16
        .irp register, t0, t1, t2, t3, t4, t5, t6, a0, a1, a2, a3, a4, a5, a6, a7
        \instruction \register, at(sp)
        .set at, at + 8
        .endr
        .endm

        # where they are kept, for debuggers
        .macro are_kept
        .cfi_def_cfa_offset KEPT
        .cfi_offset ra, 0 - KEPT
        .cfi_offset gp, 8 - KEPT
        .set at, 16
        .irp register, t0, t1, t2, t3, t4, t5, t6, a0, a1, a2, a3, a4, a5, a6, a7
        .cfi_offset \register, at - KEPT
        .set at, at + 8
        .endr
        .endm

        # Begins a function that is called by gp.
        .macro begins_by_gp name
        begins \name
        .cfi_return_column gp
        addi sp, sp, -KEPT
        .cfi_def_cfa_offset KEPT
        sd ra, 0(sp)
        .cfi_offset ra, 0 - KEPT
        jal rvmc_keep
        are_kept
        .endm

        # The same, with what its line begins with in a0.
        .macro tells name, what
        .section .rodata.\name, "a"
.L\name:
        .asciz "\what"
        begins_by_gp \name
        lla a0, .L\name
        .endm

        tells rvmc_null_pointer, "a null pointer is read or written"
        lla a1, rvmc_nothing
        call rvmc_tell
        tail rvmc_bring_back
        ends rvmc_null_pointer

        tells rvmc_null_call, "a null pointer is called"
        lla a1, rvmc_nothing
        call rvmc_tell
        tail rvmc_bring_back
        ends rvmc_null_call

        # Called by readers.S, where the name of the function stands behind the trap.
        tells rvmc_null_text, "a null pointer is given to "
        ld a1, 8(sp)
        addi a1, a1, 16
        call rvmc_tell
        tail rvmc_bring_back
        ends rvmc_null_text

        # Called before each division by 0 of a program that --check looks at.
        begins_by_gp rvmc_divided
        ld a0, 8(sp)
        call rvmc_check_division
        tail rvmc_bring_back
        ends rvmc_divided

        .section .rodata.rvmc_nothing, "a"
rvmc_nothing:
        .byte 0

        begins rvmc_keep
        sd gp, 8(sp)
        .cfi_offset gp, 8
        for_each sd
        .option push
        .option norelax
        la gp, __global_pointer$
        .option pop
        ret
        ends rvmc_keep

        begins rvmc_bring_back
        .cfi_return_column gp
        are_kept
        for_each ld
        ld ra, 0(sp)
        ld gp, 8(sp)
        .cfi_restore ra
        .cfi_restore gp
        addi sp, sp, KEPT
        .cfi_def_cfa_offset 0
        jr gp
        ends rvmc_bring_back
