MEMORY { FLASH (rx) : ORIGIN = 0x08000000, LENGTH = 128K  RAM (rwx) : ORIGIN = 0x20000000, LENGTH = 20K }
SECTIONS {
  .vectors : { KEEP(*(.vectors)) } > FLASH
  .ram_vectors (NOLOAD) : ALIGN(512) { . += 0x40; } > RAM
  .text : { *(.text*) *(.rodata*) *(.config) } > FLASH
  .init_array : { KEEP(*(.init_array*)) } > FLASH
  .data : ALIGN(16) { *(.data*) *(.ramfunc) } > RAM AT > FLASH
  .bss (NOLOAD) : { *(.bss*) *(COMMON) *(.noinit*) } > RAM
}
