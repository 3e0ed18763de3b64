/* One loadable segment at the start of RAM: the code, to be read, written and executed. */
OUTPUT_ARCH(riscv)
ENTRY(_start)

PHDRS
{
    code PT_LOAD FLAGS(7);
}

SECTIONS
{
    . = 0x80000000;
    .text : { *(.text) } :code
    /DISCARD/ : { *(.riscv.attributes) *(.comment) }
}
