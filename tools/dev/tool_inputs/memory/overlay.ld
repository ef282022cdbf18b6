MEMORY { FLASH (rx) : ORIGIN = 0x08000000, LENGTH = 128K  RAM (rwx) : ORIGIN = 0x20000000, LENGTH = 20K }
SECTIONS {
  .text : { KEEP(*(.vectors)) *(.text*) *(.rodata*) } > FLASH
  .init_array : { KEEP(*(.init_array*)) } > FLASH
  OVERLAY : { .ov1 { *(.ramfunc) } .ov2 { *(.config) } .ov3 { *(.data.second) } } > RAM AT > FLASH
  .data : { *(.data*) } > RAM AT > FLASH
  .bss : { *(.bss*) *(COMMON) *(.noinit*) } > RAM
}
