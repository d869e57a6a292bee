/* What goes where, for a processor that begins with its vectors at the start of `rom`. */
ENTRY(start_vectors)

SECTIONS
{
    .text : {
        start_vectors = .;
        KEEP(*(.vectors))
        *(.text .text.*)
        *(.rodata .rodata.*)
    } > rom
    .ARM.exidx : { *(.ARM.exidx*) } > rom
    .data : ALIGN(4) {
        data_begin = .;
        *(.data .data.*)
        . = ALIGN(4);
        data_end = .;
    } > ram AT > rom
    data_in_rom = LOADADDR(.data);
    .bss (NOLOAD) : ALIGN(8) {
        bss_begin = .;
        *(.bss .bss.*)
        *(COMMON)
        . = ALIGN(8);
        bss_end = .;
    } > ram
    stack_top = ORIGIN(ram) + LENGTH(ram);
}
