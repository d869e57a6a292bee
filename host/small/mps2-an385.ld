/* Arm's MPS2 board with the Cortex-M3 of its application note 385. */
MEMORY
{
    rom : ORIGIN = 0x00000000, LENGTH = 4M
    ram : ORIGIN = 0x20000000, LENGTH = 4M
}
INCLUDE sections.ld
