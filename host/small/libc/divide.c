/* Division on an Arm processor that has none, by the names that the compiler calls. Only the programs around the
 * library divide; the library itself does not. */
#include <stdint.h>

/* The quotient below, the rest above. */
uint64_t __aeabi_uidivmod(uint32_t number, uint32_t by);
uint32_t __aeabi_uidiv(uint32_t number, uint32_t by);

uint64_t __aeabi_uidivmod(uint32_t number, uint32_t by) {
    uint32_t quotient = 0, rest = 0;
    for (int bit = 31; bit >= 0; bit--) {
        uint32_t carried = rest >> 31;
        rest = rest << 1 | (number >> bit & 1);
        if (carried || rest >= by) {
            rest -= by;
            quotient |= (uint32_t)1 << bit;
        }
    }
    return (uint64_t)rest << 32 | quotient;
}

uint32_t __aeabi_uidiv(uint32_t number, uint32_t by) { return (uint32_t)__aeabi_uidivmod(number, by); }
