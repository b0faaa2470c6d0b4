/* qemu's board virt: a RISC-V with RAM alone. Start-up, sections and stack are picolibc's. */
__flash = 0x80000000;
__flash_size = 4M;
__ram = 0x80400000;
__ram_size = 8M;
INCLUDE picolibc.ld
