/* Code and constants lie behind the preamble, the data where an image of 4096 bytes has its data region. The
   first values of the data lie behind the constants. gp is the base of the data, as it is at the start. */
ENTRY(shell)
SECTIONS
{
    .text 0x80000080 :
    {
        *(.text.shell) *(.text .text.*) *(.rodata .rodata.*) *(.srodata .srodata.*)
        . = ALIGN(4);
    }
    data_values = .;
    .data 0x80001000 : AT(data_values) { *(.data .data.*) *(.sdata .sdata.*) . = ALIGN(4); }
    data_bytes = SIZEOF(.data);
    .bss : { *(.sbss .sbss.*) *(.bss .bss.*) *(COMMON) . = ALIGN(4); }
    data_end = .;
    __global_pointer$ = 0x80001000;
    /DISCARD/ : { *(.comment) *(.riscv.attributes) *(.eh_frame) *(.note .note.*) }
    ASSERT(data_values + data_bytes <= 0x80001000, "the code is larger than the image")
    ASSERT(data_end <= 0x80001000 + 4096, "the data is larger than the image's data")
}
