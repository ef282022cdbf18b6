MEMORY { FLASH (rx) : ORIGIN = 0x08000000, LENGTH = 128K  RAM (rwx) : ORIGIN = 0x20000000, LENGTH = 20K }
SECTIONS {
  .text : { KEEP(*(.vectors)) *(.text*) *(.rodata*) *(.config) } > FLASH
  .init_array : { KEEP(*(.init_array*)) . = ALIGN(4); etext = .; } > FLASH
  .data : AT (etext) { *(.data*) *(.ramfunc) } > RAM
  .bss : { *(.bss*) *(COMMON) *(.noinit*) } > RAM
}
