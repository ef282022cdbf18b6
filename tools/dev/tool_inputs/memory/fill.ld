MEMORY { FLASH (rx) : ORIGIN = 0x08000000, LENGTH = 128K  RAM (rwx) : ORIGIN = 0x20000000, LENGTH = 20K }
SECTIONS {
  .text : { KEEP(*(.vectors)) *(.text*) *(.rodata*) *(.config) . = ALIGN(1024); } > FLASH =0xff
  .init_array : { KEEP(*(.init_array*)) } > FLASH
  .crc : { LONG(0xdeadbeef) } > FLASH
  .data : { *(.data*) *(.ramfunc) } > RAM AT > FLASH
  .bss : { *(.bss*) *(COMMON) *(.noinit*) } > RAM
  .image_end : { BYTE(1) . = ALIGN(0x800); } > FLASH
}
