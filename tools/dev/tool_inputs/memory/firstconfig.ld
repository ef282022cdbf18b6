MEMORY { FLASH (rx) : ORIGIN = 0x08000000, LENGTH = 128K  RAM (rwx) : ORIGIN = 0x20000000, LENGTH = 20K }
SECTIONS {
  .config 0x0801fc00 : { KEEP(*(.config)) } > FLASH
  .text 0x08000000 : { KEEP(*(.vectors)) *(.text*) *(.rodata*) } > FLASH
  .init_array : { KEEP(*(.init_array*)) } > FLASH
  .data : { *(.data*) *(.ramfunc) } > RAM AT > FLASH
  .bss : { *(.bss*) *(COMMON) *(.noinit*) } > RAM
}
