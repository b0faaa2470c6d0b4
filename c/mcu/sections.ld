/* What goes where, in the regions FLASH and RAM that the board's script declares. */
ENTRY(reset_handler)

SECTIONS
{
    .text : {
        KEEP(*(.vectors))
        *(.text*)
        *(.rodata*)
        . = ALIGN(4);
    } > FLASH
    .data : {
        data_start = .;
        *(.data*)
        . = ALIGN(4);
        data_end = .;
    } > RAM AT > FLASH
    data_in_flash = LOADADDR(.data);
    .bss (NOLOAD) : {
        bss_start = .;
        *(.bss*) *(COMMON)
        . = ALIGN(8);
        bss_end = .;
    } > RAM
    /* malloc takes from here upwards; the stack comes down from the top. */
    end = bss_end;
    stack_top = ORIGIN(RAM) + LENGTH(RAM);
    __stack = stack_top;
    /* Nothing unwinds. */
    /DISCARD/ : { *(.ARM.exidx*) *(.ARM.extab*) }
}
