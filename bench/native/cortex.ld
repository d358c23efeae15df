/* The memory of the board mps2-an386 of QEMU, which has a Cortex-M4. */
MEMORY { code (rx) : ORIGIN = 0, LENGTH = 4M  data (rw) : ORIGIN = 0x20000000, LENGTH = 4M }
SECTIONS {
  .text : { KEEP(*(.vectors)) *(.text* .rodata*) . = ALIGN(8); } > code
  .ARM.exidx : { *(.ARM.exidx*) } > code
  .data : { *(.data*) } > data
  .bss : { *(.bss* COMMON) } > data
  stack_top = ORIGIN(data) + LENGTH(data);
}
