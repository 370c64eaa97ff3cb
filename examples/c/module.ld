/* A module: the preamble's 128 bytes, code and constants, the first values of the data; and the data itself, which
   lies apart, at gp. CODE and DATA are given by the Makefile, which links each module at two places and compares
   the bytes: a module's code may not depend on where the board puts it. */
ENTRY(shell)
SECTIONS
{
    .text CODE + 128 :
    {
        *(.text.shell) *(.text .text.*) *(.rodata .rodata.* .srodata .srodata.*)
        . = ALIGN(4);
        data_values = .;
    }
    .data DATA : AT(data_values) { *(.data.shown) *(.data .data.* .sdata .sdata.*) . = ALIGN(4); }
    data_values_end = data_values + SIZEOF(.data);
    .bss (NOLOAD) : { *(.sbss .sbss.* .bss .bss.* COMMON) . = ALIGN(4); }
    module_data_size = . - DATA;
    __global_pointer$ = DATA;
    /DISCARD/ : { *(.comment) *(.riscv.attributes) *(.eh_frame) *(.note .note.*) }
}
