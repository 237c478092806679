# start.S: where every hart of a C guest begins, with a0 the hart's number and a1 the rank's.
# Hart 0 puts the data where it belongs and runs main. The others wait for work from their own rank, in the twin of
# communicator 0 (call.h): so a run in which nobody will ever give them work is a deadlock that can be shown, where a loop would
# run on. They touch no memory before that, since the data is not in its place until hart 0 has put it there.
# The stacks stand straight above the text, hart 0's lowest (guest.ld). No function of C has a section of this name.
        .cfi_sections .debug_frame

# A line and a trap, with all registers as they were (traps.S). rvmc-cc puts the same where a check of a pointer has failed.
        .macro trap_after function
        jal gp, \function
        .option push
        .option norelax
        la gp, __global_pointer$
        .option pop
        ebreak
        .endm

        .section .text.rvmc.start, "ax"
# Where a call through a null pointer leads: address 0. It is no function to a debugger, which would show its name for NULL.
        .globl null_call
null_call:
        .cfi_startproc
        trap_after rvmc_null_call
        ret
        .cfi_endproc
        .size null_call, . - null_call

        .globl _start
        .type _start, @function
_start:
        .cfi_startproc
        .cfi_undefined ra
        .option push
        .option norelax
        la gp, __global_pointer$
        .option pop
        mv s1, a0
        mv s2, a1
        li s0, 0                        # the end of the chain of frames
        la sp, rvmc_stacks
        la t0, rvmc_stack
        addi t1, s1, 1
        mul t0, t0, t1
        add sp, sp, t0
        bnez s1, idle_hart
        # The data was loaded behind the text, at the lower end of the stacks. It moves up, so its end goes first.
        la t0, rvmc_data_loaded
        la t1, rvmc_data_loaded_end
        la t2, rvmc_data_end
1:      beq t1, t0, 2f
        addi t1, t1, -8
        addi t2, t2, -8
        ld t3, 0(t1)
        sd t3, 0(t2)
        j 1b
2:      jal t6, thread_locals
        mv a0, s2
        call rvmc_begin                 # does not return
        .cfi_endproc
        .size _start, . - _start

        .globl idle_hart
        .type idle_hart, @function
idle_hart:
        .cfi_startproc
        .cfi_undefined ra
        li a0, 0
        li a1, 0
        mv a2, s2                       # from the own rank
        addi a3, s1, 104                # RVMC_TAG_WORK and the hart
        li a4, 1                        # RVMC_TWIN
        li a5, 0
        li a7, 18                       # RECV
        ecall
        jal t6, thread_locals
        mv a0, s1
        call rvmc_work
        j idle_hart
        .cfi_endproc
        .size idle_hart, . - idle_hart

# Gives hart s1 its thread-local variables anew, as a new thread has to have them. Returns by t6.
        .type thread_locals, @function
thread_locals:
        .cfi_startproc
        .cfi_return_column t6
        la tp, rvmc_locals
        la t0, rvmc_locals_size
        mul t1, t0, s1
        add tp, tp, t1
        add t0, tp, t0
        mv t1, tp
        la t2, rvmc_tdata
        la t3, rvmc_tdata_end
1:      beq t1, t0, 3f
        li t4, 0
        bgeu t2, t3, 2f
        ld t4, 0(t2)
        addi t2, t2, 8
2:      sd t4, 0(t1)
        addi t1, t1, 8
        j 1b
3:      jr t6
        .cfi_endproc
        .size thread_locals, . - thread_locals
