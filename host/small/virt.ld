/* The emulator's own RISC-V board: one memory, of which the lower half is only read. */
MEMORY
{
    rom : ORIGIN = 0x80000000, LENGTH = 4M
    ram : ORIGIN = 0x80400000, LENGTH = 4M
}
INCLUDE sections.ld
