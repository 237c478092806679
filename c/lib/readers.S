# readers.S: what stands before the C library's functions that read texts, or a FILE: a null pointer is reported there, with
# all registers as they were at the call, where the function itself would read the program's first bytes. rvmc-cc gives each
# name to --wrap, unless the program has a function of that name, and guest.ld puts each before the library's function.
#include "null.h"
        .cfi_sections .debug_frame

        # The registers whose pointers are looked at, unless the number of bytes in another one is 0.
        .macro reader_to on, name, bytes, pointers:vararg
        .section .text.\name, "ax"
        .globl __wrap_\name
        .type __wrap_\name, @function
        .type \name, @function
__wrap_\name:
\name:
        .cfi_startproc
        .ifnc \bytes, always
        beqz \bytes, 1f
        .endif
        .irp pointer, \pointers
        beqz \pointer, 2f
        .endr
1:      tail \on
2:      is_null \name
        .cfi_endproc
        .size \name, . - \name
        .endm

        .macro reader name, bytes, pointers:vararg
        reader_to __real_\name, \name, \bytes, \pointers
        .endm

        reader strtol, always, a0
        reader strtoul, always, a0
        reader strtoll, always, a0
        reader strtoull, always, a0
        reader strtoimax, always, a0
        reader strtoumax, always, a0
        reader strtod, always, a0
        reader strtof, always, a0
        reader strtold, always, a0
        reader atoi, always, a0
        reader atol, always, a0
        reader atoll, always, a0
        reader atof, always, a0
        reader strcmp, always, a0, a1
        reader strcasecmp, always, a0, a1
        reader strcoll, always, a0, a1
        reader strncmp, a2, a0, a1
        reader strncasecmp, a2, a0, a1
        reader memchr, a2, a0
        reader strchr, always, a0
        reader strrchr, always, a0
        reader strstr, always, a0, a1
        reader strpbrk, always, a0, a1
        reader strspn, always, a0, a1
        reader strcspn, always, a0, a1
        reader strtok_r, always, a1, a2
        reader strcpy, always, a0, a1
        reader strcat, always, a0, a1
        reader strncpy, a2, a0, a1
        reader strncat, a2, a0, a1
        reader stpcpy, always, a0, a1
        reader strlcpy, always, a1
        reader strlcat, always, a1
        reader strdup, always, a0
        reader strndup, a1, a0
        reader puts, always, a0
        reader fputs, always, a0, a1
        reader fgets, always, a0, a2
        reader fgetc, always, a0
        reader_to rvmc_on_fread, fread, always, a3
        reader_to rvmc_on_fwrite, fwrite, always, a3
        reader fclose, always, a0
        reader fopen, always, a0, a1
        reader remove, always, a0
        reader getenv, always, a0
        reader printf, always, a0
        reader vprintf, always, a0
        reader fprintf, always, a0, a1
        reader sprintf, always, a0, a1
        reader vsprintf, always, a0, a1
        reader snprintf, always, a2
        reader vsnprintf, always, a2
        reader scanf, always, a0
        reader fscanf, always, a0, a1
        reader sscanf, always, a0, a1
        reader vsscanf, always, a0, a1

        # strtok goes on where its first pointer is null, but for the first call.
        .section .bss.rvmc_strtok_began, "aw", @nobits
rvmc_strtok_began:
        .zero 1
        .section .text.strtok, "ax"
        .globl __wrap_strtok
        .type __wrap_strtok, @function
        .type strtok, @function
__wrap_strtok:
strtok:
        .cfi_startproc
        beqz a1, 2f
        bnez a0, 1f
        lbu t0, rvmc_strtok_began
        beqz t0, 2f
1:      li t0, 1
        sb t0, rvmc_strtok_began, t1
        tail __real_strtok
2:      is_null strtok
        .cfi_endproc
        .size strtok, . - strtok
