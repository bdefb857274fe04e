/* The guide's memory: 256 KiB, and a read-only part for the program and the survey that it carries.

   The stack stands lowest. A program that needs more of it than there is then leaves memory, which is a fault, and does
   not write over its own lists. Simplify takes the most of it, 33 KiB. Faults have a small stack of their own. */

MEMORY
{
    ROM (rx)  : ORIGIN = 0x00000000, LENGTH = 512K
    RAM (rwx) : ORIGIN = 0x20000000, LENGTH = 256K
}

ENTRY(reset)

SECTIONS
{
    .text :
    {
        KEEP(*(.vectors))
        *(EXCLUDE_FILE(*libsandline_c.a:* *libgcc.a:*) .text EXCLUDE_FILE(*libsandline_c.a:* *libgcc.a:*) .text.*)
        *(.rodata .rodata.*)
        . = ALIGN(8);
    } > ROM
    .library : { *libsandline_c.a:*(.text .text.*) . = ALIGN(8); } > ROM
    .arithmetic : { *libgcc.a:*(.text .text.*) . = ALIGN(8); } > ROM
    .survey : { *(.survey) . = ALIGN(8); } > ROM

    .stack (NOLOAD) : { stack_bottom = .; . += 40K; stack_top = .; } > RAM
    .fault_stack (NOLOAD) : { . += 512; fault_stack_top = .; } > RAM

    .data : ALIGN(8)
    {
        data_start = .;
        *(.data .data.*)
        . = ALIGN(8);
        data_end = .;
    } > RAM AT > ROM
    data_image = LOADADDR(.data);

    .bss (NOLOAD) : ALIGN(8)
    {
        bss_start = .;
        *(.bss .bss.*)
        *(COMMON)
        . = ALIGN(8);
        bss_end = .;
    } > RAM

    bytes_left = ORIGIN(RAM) + LENGTH(RAM) - bss_end;

    /DISCARD/ : { *(.ARM.exidx*) *(.ARM.extab*) }
}
