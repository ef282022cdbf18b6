MEMORY { FLASH (rx) : ORIGIN = 0x08000000, LENGTH = 128K  RAM (rwx) : ORIGIN = 0x20000000, LENGTH = 20K }
SECTIONS {
  .text : { KEEP(*(.vectors)) *(.text*) *(.rodata*) *(.config) . = ALIGN(64); } > FLASH
  .empty1 : ALIGN(256) { e1 = .; } > FLASH
  .init_array : { KEEP(*(.init_array*)) } > FLASH
  .data : { *(.data*) *(.ramfunc) } > RAM AT > FLASH
  .bss : { *(.bss*) *(COMMON) *(.noinit*) } > RAM
  .heap : ALIGN(1024) { heap = .; } > RAM
  .stack (NOLOAD) : ALIGN(2048) { stack = .; KEEP(*(.nothing)) } > RAM
}
