/* The boards MPS2 with a Cortex-M3 or M4 (AN385, AN386). For your own: its flash and RAM. */
MEMORY
{
    FLASH : ORIGIN = 0x00000000, LENGTH = 4M
    RAM   : ORIGIN = 0x20000000, LENGTH = 4M
}
INCLUDE sections.ld
