MEMORY { FLASH (rx) : ORIGIN = 0x08000000, LENGTH = 128K  RAM (rwx) : ORIGIN = 0x20000000, LENGTH = 20K }
SECTIONS {
  . = ORIGIN(FLASH) + 0x4000;
  .vectors 0x08004000 : { KEEP(*(.vectors)) } > FLASH
  .text : { *(.text*) *(.rodata*) *(.config) } > FLASH
  .init_array : { KEEP(*(.init_array*)) } > FLASH
  .data 0x20000200 : { *(.data*) *(.ramfunc) } > RAM AT > FLASH
  .bss : { *(.bss*) *(COMMON) *(.noinit*) } > RAM
}
