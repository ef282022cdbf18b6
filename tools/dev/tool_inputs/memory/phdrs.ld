MEMORY { FLASH (rx) : ORIGIN = 0x08000000, LENGTH = 128K  RAM (rwx) : ORIGIN = 0x20000000, LENGTH = 20K }
PHDRS { text PT_LOAD; data PT_LOAD; bss PT_LOAD; exidx 0x70000001; }
SECTIONS {
  .text : { KEEP(*(.vectors)) *(.text*) *(.rodata*) *(.config) } > FLASH :text
  .init_array : { KEEP(*(.init_array*)) } > FLASH :text
  .ARM.exidx : { *(.ARM.exidx*) } > FLASH :text :exidx
  .data : { *(.data*) *(.ramfunc) } > RAM AT > FLASH :data
  .bss (NOLOAD) : { *(.bss*) *(COMMON) } > RAM :bss
  .noinit (NOLOAD) : { *(.noinit*) } > RAM :NONE
}
