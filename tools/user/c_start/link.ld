/* The machine of `ixt`: instructions from address 0, which no load can read, and 1 MiB of memory
   that is all zero at the start. So constants stand in memory too. 16 KiB are left to the stack. */
OUTPUT_ARCH(riscv)
ENTRY(_start)

MEMORY
{
  image (rx) : ORIGIN = 0, LENGTH = 256K
  memory (rw) : ORIGIN = 0x80000000, LENGTH = 1M - 16K
}

PHDRS
{
  code PT_LOAD FLAGS(5);
  data PT_LOAD FLAGS(6);
}

SECTIONS
{
  .text :
  {
    KEEP(*(.start))
    *(.text .text.*)
    . = ALIGN(4);
    __fill = .;
  } > image : code

  .data :
  {
    *(.rodata .rodata.* .srodata .srodata.*)
    *(.data .data.*)
    . = ALIGN(4);
    __global_pointer$ = . + 0x800;
    *(.sdata .sdata.*)
  } > memory : data

  .init_array :
  {
    KEEP(*(.init_array .init_array.* .ctors .ctors.*))
  } > memory : data

  .bss (NOLOAD) :
  {
    *(.sbss .sbss.* .bss .bss.* COMMON)
  } > memory : data

  __stack_end = 0x80100000;
  ASSERT(SIZEOF(.init_array) == 0, "functions before main (constructors) are not run here")
  /DISCARD/ : { *(.comment .note .note.* .eh_frame .eh_frame_hdr) }
}
