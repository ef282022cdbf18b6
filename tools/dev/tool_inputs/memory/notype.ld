MEMORY { FLASH (rx) : ORIGIN = 0x08000000, LENGTH = 128K  RAM (rwx) : ORIGIN = 0x20000000, LENGTH = 20K  "a long region name of many letters" (rw) : ORIGIN = 0x60000000, LENGTH = 1M }
SECTIONS {
  .text : { KEEP(*(.vectors)) *(.text*) *(.rodata*) *(.config) } > FLASH
  .info (INFO) : { *(.rotable) }
  .noload_rom (NOLOAD) : { . += 0x100; } > FLASH
  .init_array : { KEEP(*(.init_array*)) } > FLASH
  .data : { *(.data*) *(.ramfunc) } > RAM AT > FLASH
  .bss : { *(.bss*) *(COMMON) } > RAM
  .noinit (NOLOAD) : { *(.noinit*) } > "a long region name of many letters"
  .endcopy : { BYTE(7) } > "a long region name of many letters" AT > FLASH
}
