MEMORY { FLASH (rx) : ORIGIN = 0x08000000, LENGTH = 128K  RAM (rwx) : ORIGIN = 0x20000000, LENGTH = 20K
  CCM (rw) : ORIGIN = 0x10000000, LENGTH = 0x1000  UNUSED (rw): ORIGIN = 0x30000000, LENGTH = 3M }
SECTIONS {
  .text : { KEEP(*(.vectors)) *(.text*) *(.rodata*) *(.config) } > FLASH
  .init_array : { KEEP(*(.init_array*)) } > FLASH
  .ccm_data : { *(.data.second) } > CCM AT > FLASH
  .data : { *(.data*) *(.ramfunc) } > RAM AT > FLASH
  .ccm_bss (NOLOAD) : { *(.bss.second) } > CCM
  .bss : { *(.bss*) *(COMMON) } > RAM
  .noinit (NOLOAD) : { *(.noinit*) } > CCM
  .heap (NOLOAD) : { . = ALIGN(8); . += 0x400; } > RAM
  .stack : { . = ALIGN(8); . += 0x200; } > RAM
}
