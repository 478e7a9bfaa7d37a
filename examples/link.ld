/* Code at 02000000, where the RAM of an ERC32 board begins, then constants, then data. */
OUTPUT_FORMAT("elf32-sparc")
OUTPUT_ARCH(sparc)
SECTIONS
{
  . = 0x02000000;
  .text : { *(.text .text.*) }
  .rodata : { *(.rodata .rodata.*) }
  .data : { *(.data .data.*) }
  .bss : { *(.bss .bss.* COMMON) }
  /DISCARD/ : { *(.comment) *(.note*) *(.gnu.attributes) *(.eh_frame*) }
}
