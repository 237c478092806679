/* guest.ld: the memory of a C guest.

    0             text, and what is only read: a store into it is trap 7, and a call of 0 is told
    rvmc_stacks   the stacks, hart 0's lowest: when it is full, the next store is one into the text
                  data, thread-local variables, zeros, the lines that harts print, the heap up to the memory's end

   An image's data is loaded straight behind its text, where the stacks are; start.S moves it to its place. rvmc-cc names
   rvmc_memory, rvmc_harts, rvmc_stack and rvmc_communicators. */
ENTRY(_start)
PHDRS
{
    text PT_LOAD FLAGS(5);
    data PT_LOAD FLAGS(6);
    locals PT_TLS;
}
SECTIONS
{
    .text 0 :
    {
        KEEP(*(.text.rvmc.start))
        *(EXCLUDE_FILE(*readers.o *libc.a:*) .text EXCLUDE_FILE(*readers.o *libc.a:*) .text.*)
        *(.text SORT_BY_NAME(.text.*))          /* readers.S before what it calls: one symbol is of both */
        . = ALIGN(8);
        __init_array_start = .;
        KEEP(*(SORT(.init_array.*) .init_array))
        __init_array_end = .;
        __preinit_array_start = .;
        __preinit_array_end = .;
        KEEP(*(SORT(.fini_array.*) .fini_array))
        *(.rodata .rodata.* .srodata .srodata.*)
        . = ALIGN(4);
        rvmc_places = .;
        *(rvmc_places)
        rvmc_places_end = .;
        . = ALIGN(16);
    } :text
    rvmc_stacks = .;
    . = . + rvmc_harts * rvmc_stack;
    .data : AT(rvmc_stacks)
    {
        rvmc_data = .;
        *(.data .data.*)
        . = ALIGN(8);
        __global_pointer$ = . + 0x800;
        *(.sdata .sdata.*)
        . = ALIGN(16);
    } :data
    .tdata : AT(rvmc_stacks + SIZEOF(.data))
    {
        rvmc_tdata = .;
        *(.tdata .tdata.*)
        . = ALIGN(16);
        rvmc_tdata_end = .;
    } :data :locals
    rvmc_data_end = .;
    rvmc_data_loaded = rvmc_stacks;
    rvmc_data_loaded_end = rvmc_stacks + (rvmc_data_end - rvmc_data);
    .tbss :
    {
        *(.tbss .tbss.*)
    } :data :locals
    rvmc_locals_size = (SIZEOF(.tdata) + SIZEOF(.tbss) + 31) / 16 * 16;
    .bss (NOLOAD) :
    {
        *(.sbss .sbss.* .bss .bss.* COMMON)
        . = ALIGN(16);
        rvmc_locals = .;
        . = . + rvmc_harts * rvmc_locals_size;
        rvmc_pages = .;
        . = . + rvmc_harts * (4096 + 4096 + 8 + 16);
        . = ALIGN(16);
    } :data
    __heap_start = .;
    __heap_end = rvmc_memory;
    /DISCARD/ :
    {
        *(.eh_frame .eh_frame_hdr .comment .riscv.attributes .note .note.*)
    }
}
