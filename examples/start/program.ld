/* Two loadable segments: the code from the start of RAM, to be read and executed, and behind it the data. The stacks are at the
   end of RAM, with room for those of most_harts: of as many harts as there may be, where nothing else is said. Change ram_size together
   with the key `ram` of the configuration. A program that writes its own code has FLAGS(7) for it, as `image.sh --writable` writes here.
   A section that stands nowhere here is an error: the linker would else put it where it likes, into the code too. */
OUTPUT_ARCH(riscv)
ENTRY(_start)

PROVIDE(ram_size = 65536);
PROVIDE(most_harts = 16);
PROVIDE(stack_size = most_harts > 8 ? 2048 : 4096);
ram_end = 0x80000000 + ram_size;

PHDRS
{
    code PT_LOAD FLAGS(5);
    data PT_LOAD FLAGS(6);
}

SECTIONS
{
    . = 0x80000000;
    .text : { *(.text.start) *(.text .text.*) . = ALIGN(4); } :code
    /* An image may not have an empty segment: a word, so that there is data even where a program has none. */
    .rodata : { LONG(0) *(.rodata .rodata.* .srodata .srodata.*) } :data
    .data : { *(.data .data.* .sdata .sdata.*) } :data
    /* Thread-local variables: what they begin with. Only program_libc.ld has the header that they need. Both begin at multiples of
       16, as each hart's own do: LLVM's linker would else count the difference in, and GNU's takes that of no .tdata for one. */
    .tdata : ALIGN(16) { *(.tdata .tdata.*) } :data :thread_local
    .tbss : ALIGN(16) { *(.tbss .tbss.* .tcommon) } :data :thread_local
    .bss : { *(.sbss .sbss.*) *(.bss .bss.* COMMON) } :data
    data_end = .;
    /* For a C library: all that is free between the data and the stacks. */
    __heap_start = ALIGN(16);
    __heap_end = ram_end - most_harts * stack_size;
    /* LLVM's linker asks for the sections that it makes itself. */
    .symtab 0 : { *(.symtab) }
    .strtab 0 : { *(.strtab) }
    .shstrtab 0 : { *(.shstrtab) }
    /DISCARD/ : { *(.riscv.attributes) *(.comment) *(.note*) *(.eh_frame*) *(.llvm_addrsig) *(.debug*) *(.rela.*) }
}

ASSERT(data_end <= ram_end - most_harts * stack_size, "the data reach into the stacks: fewer stacks (image.sh --harts), smaller ones (--stack) or more memory (--ram)")
