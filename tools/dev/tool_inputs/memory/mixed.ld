MEMORY { FLASH (rx) : ORIGIN = 0x08000000, LENGTH = 128K  RAM (rwx) : ORIGIN = 0x20000000, LENGTH = 20K  EXT (rx) : ORIGIN = 0x90000000, LENGTH = 8M BKP (rw) : ORIGIN = 0x40024000, LENGTH = 4K}
SECTIONS {
  .vectors : { KEEP(*(.vectors)) . = ALIGN(512); } > FLASH
  .text : { *(.text*) } > FLASH
  .rodata : ALIGN(4) { *(.rodata*) . = ALIGN(4); } > EXT
  .init_array : { KEEP(*(.init_array*)) } > FLASH
  .data : ALIGN(8) { *(.data) *(.data.values) . = ALIGN(8); } > RAM AT > FLASH
  .second : ALIGN(256) { *(.data.second) *(.ramfunc) } > RAM AT > EXT
  .bss : ALIGN(16) { *(.bss*) *(COMMON) . = ALIGN(16); } > RAM
  .backup (NOLOAD) : { *(.noinit*) } > BKP
  ._user_heap_stack : { . = ALIGN(8); . = . + 0x200; . = . + 0x400; . = ALIGN(8); } > RAM
  .config : { KEEP(*(.config)) } > FLASH
}
