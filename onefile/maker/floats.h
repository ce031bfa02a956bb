/* Floating point. Each result is rounded to a double before the next operation. x87 rounds it to 64 bits first: with the program's ratios of
 * lengths below 1024, and their sums, that makes no difference. */
INLINE u64 bits_of(double number) { u64 bits; memcpy(&bits, &number, 8); return bits; }
INLINE double of_bits(u64 bits) { double number; memcpy(&number, &bits, 8); return number; }
INLINE double rounded(double number) { volatile double it = number; return it; }
