MEMORY { FLASH (rx) : ORIGIN = 0x08000000, LENGTH = 128K  RAM (rwx) : ORIGIN = 0x20000000, LENGTH = 20K }
SECTIONS {
  .text : { KEEP(*(.vectors)) *(.text*) *(.rodata*) *(.config) *(.rotable) } > FLASH
  .preinit_array : { PROVIDE_HIDDEN (a = .); KEEP(*(.preinit_array*)) PROVIDE_HIDDEN (b = .); } > FLASH
  .init_array : { KEEP(*(.init_array*)) } > FLASH
  .emptyt : ALIGN(512) { KEEP(*(.nothing_text)) } > FLASH
  .data : { *(.data*) *(.ramfunc) } > RAM AT > FLASH
  .bss : { *(.bss*) *(COMMON) *(.noinit*) } > RAM
  .heap : ALIGN(1024) { heap = .; KEEP(*(.nothing)) } > RAM
  .stack (NOLOAD) : ALIGN(2048) { stack = .; } > RAM
}
