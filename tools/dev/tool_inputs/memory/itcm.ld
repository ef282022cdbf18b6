MEMORY { ITCM (rwx) : ORIGIN = 0, LENGTH = 16K FLASH (rx) : ORIGIN = 0x60000000, LENGTH = 1M  DTCM (rw) : ORIGIN = 0x20000000, LENGTH = 20K
 OCRAM (rw) : ORIGIN = 0x20200000, LENGTH = 256K }
SECTIONS {
  .boot : { KEEP(*(.config)) . = 0x1000; } > FLASH
  .text : { KEEP(*(.vectors)) *(.text*) } > ITCM AT > FLASH
  .ramfunc : ALIGN(32) { *(.ramfunc) } > ITCM AT > FLASH
  .rodata : { *(.rodata*) } > DTCM AT > FLASH
  .init_array : { KEEP(*(.init_array*)) } > FLASH
  .data : { *(.data*) } > DTCM AT > FLASH
  .bss (NOLOAD) : { *(.bss*) *(COMMON) } > DTCM
  .noinit (NOLOAD) : { *(.noinit*) } > OCRAM
}
