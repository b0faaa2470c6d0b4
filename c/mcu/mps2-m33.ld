/* The board MPS2 with a Cortex-M33 (AN505), which starts in the secure state. */
MEMORY
{
    FLASH : ORIGIN = 0x10000000, LENGTH = 4M
    RAM   : ORIGIN = 0x38000000, LENGTH = 4M
}
INCLUDE sections.ld
