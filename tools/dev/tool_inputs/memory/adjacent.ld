MEMORY { FLASH (rx) : ORIGIN = 0, LENGTH = 64K  RAM1 (rwx) : ORIGIN = 0x20000000, LENGTH = 1K
  RAM2 (rwx) : ORIGIN = 0x20000400, LENGTH = 4K }
SECTIONS {
  .text : { KEEP(*(.vectors)) *(.text*) *(.rodata*) *(.config) } > FLASH
  .init_array : { KEEP(*(.init_array*)) } > FLASH
  .data : { *(.data*) *(.ramfunc) } > RAM1 AT > FLASH
  .pad (NOLOAD) : { . = 0x400 - SIZEOF(.data); } > RAM1
  .bss (NOLOAD) : { *(.bss*) *(COMMON) } > RAM2
  .noinit (NOLOAD) : { *(.noinit*) } > RAM2
}
