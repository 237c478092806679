# check_stubs.S: what gcc's -fsanitize=thread calls before each access of a program that rvmc-cc --check builds, and
# at the start of each function.
# Most accesses are right, and cost about ten turns here: below the heap nothing but the buffers of active requests is
# looked at, and in the heap the block that was found last. All others go to rvmc_check_access. Behind the call is a trap:
# a right access goes on four bytes further. Only t0 and t1 are touched.
#include "functions.h"
        .cfi_sections .debug_frame

        .macro go_on
        jr 4(ra)
        .endm

        # Begins an access: goes to \slow where the stack is nearly full or the address may be in an active buffer, and
        # on where it is below the heap.
        .macro look slow
        lui t0, %tprel_hi(rvmc_check_stack_end)
        add t0, t0, tp, %tprel_add(rvmc_check_stack_end)
        ld t0, %tprel_lo(rvmc_check_stack_end)(t0)
        bltu sp, t0, \slow
        ld t0, rvmc_check_watched
        ld t1, rvmc_check_watched_length
        sub t0, a0, t0
        bltu t0, t1, \slow
        ld t0, rvmc_check_heap
        bltu a0, t0, 1f
        ld t0, rvmc_check_block
        ld t1, rvmc_check_block_length
        sub t0, a0, t0
        bgeu t0, t1, \slow
        .endm

        # A store of so many bytes.
        .macro store bytes
        begins __tsan_write\bytes
        look 2f
1:      go_on
2:      li a1, \bytes
        li a3, 1
        j rvmc_check_slowly
        .cfi_endproc
        .size __tsan_write\bytes, . - __tsan_write\bytes
        .endm

        # A load of 1, 2 or 4 bytes: nobody has written it if the word around it is as malloc left it.
        .macro load bytes
        begins __tsan_read\bytes
        look 2f
        andi t0, a0, -4
        lw t0, 0(t0)
        lw t1, rvmc_check_fresh
        beq t0, t1, 2f
1:      go_on
2:      li a1, \bytes
        li a3, 0
        j rvmc_check_slowly
        .cfi_endproc
        .size __tsan_read\bytes, . - __tsan_read\bytes
        .endm

        store 1
        store 2
        store 4
        store 8
        load 1
        load 2
        load 4

        begins __tsan_read8
        look 2f
        ld t0, 0(a0)
        ld t1, rvmc_check_fresh
        beq t0, t1, 2f
1:      go_on
2:      li a1, 8
        li a3, 0
        j rvmc_check_slowly
        .cfi_endproc
        .size __tsan_read8, . - __tsan_read8

        # 16 bytes need not be aligned to 16, so in the heap they may begin in a block and end behind it. A copy of a
        # structure may copy fields that nobody has written: so that isn't looked at from here on.
        .macro longer name, is_store
        begins \name
        lui t0, %tprel_hi(rvmc_check_stack_end)
        add t0, t0, tp, %tprel_add(rvmc_check_stack_end)
        ld t0, %tprel_lo(rvmc_check_stack_end)(t0)
        bltu sp, t0, 2f
        ld t0, rvmc_check_watched
        ld t1, rvmc_check_watched_length
        sub t0, a0, t0
        bltu t0, t1, 2f
        ld t0, rvmc_check_heap
        bgeu a0, t0, 2f
        go_on
2:      li a1, 16
        li a3, \is_store
        j rvmc_check_slowly
        .cfi_endproc
        .size \name, . - \name
        .endm

        longer __tsan_read16, 0
        longer __tsan_write16, 1

        begins __tsan_read_range
        li a3, 0
        j rvmc_check_slowly
        .cfi_endproc
        .size __tsan_read_range, . - __tsan_read_range

        begins __tsan_write_range
        li a3, 1
        j rvmc_check_slowly
        .cfi_endproc
        .size __tsan_write_range, . - __tsan_write_range

        # Of packed structures: aligned to nothing, so that they may reach out of a block.
        .macro unaligned name, bytes, is_store
        begins \name
        li a1, \bytes
        li a3, \is_store
        j rvmc_check_slowly
        .cfi_endproc
        .size \name, . - \name
        .endm

        unaligned __tsan_unaligned_read2, 2, 0
        unaligned __tsan_unaligned_read4, 4, 0
        unaligned __tsan_unaligned_read8, 8, 0
        unaligned __tsan_unaligned_read16, 16, 0
        unaligned __tsan_unaligned_write2, 2, 1
        unaligned __tsan_unaligned_write4, 4, 1
        unaligned __tsan_unaligned_write8, 8, 1
        unaligned __tsan_unaligned_write16, 16, 1

        # The start of a function, where the stack may be full.
        begins __tsan_func_entry
        lui t0, %tprel_hi(rvmc_check_stack_end)
        add t0, t0, tp, %tprel_add(rvmc_check_stack_end)
        ld t0, %tprel_lo(rvmc_check_stack_end)(t0)
        bltu sp, t0, 2f
        go_on
2:      li a1, 0
        li a3, 0
        j rvmc_check_slowly
        .cfi_endproc
        .size __tsan_func_entry, . - __tsan_func_entry

        # Each source calls this before main.
        begins __tsan_init
        ret
        .cfi_endproc
        .size __tsan_init, . - __tsan_init

# a0 the address, a1 the bytes, a3 whether they are written. Goes on behind the trap, or to it. The registers that the
# program may keep a request in are put below its stack, where they are found as what is on it is.
        .section .text.rvmc_check_slowly, "ax"
        .globl rvmc_check_slowly
        .type rvmc_check_slowly, @function
rvmc_check_slowly:
        .cfi_startproc
        addi sp, sp, -112
        .cfi_def_cfa_offset 112
        sd ra, 104(sp)
        sd s0, 96(sp)
        .cfi_offset ra, -8
        .cfi_offset s0, -16
        addi s0, sp, 112
        sd s1, 0(sp)
        sd s2, 8(sp)
        sd s3, 16(sp)
        sd s4, 24(sp)
        sd s5, 32(sp)
        sd s6, 40(sp)
        sd s7, 48(sp)
        sd s8, 56(sp)
        sd s9, 64(sp)
        sd s10, 72(sp)
        sd s11, 80(sp)
        mv a2, ra
        mv a4, sp
        call rvmc_check_access
        ld ra, 104(sp)
        ld s0, 96(sp)
        .cfi_restore ra
        .cfi_restore s0
        addi sp, sp, 112
        .cfi_def_cfa_offset 0
        bnez a0, 1f
        go_on
1:      ret
        .cfi_endproc
        .size rvmc_check_slowly, . - rvmc_check_slowly
