/* Shifts and products of numbers of 128 bits, which the compiler calls by these names. */
typedef unsigned long half;
typedef __int128 whole;
typedef union {
    whole all;
    struct {
        half low, high;
    } part;
} parts;

whole __ashlti3(whole number, int by) {
    parts from = {number}, to;
    if (by == 0)
        return number;
    if (by & 64) {
        to.part.low = 0;
        to.part.high = from.part.low << (by & 63);
    } else {
        to.part.low = from.part.low << by;
        to.part.high = from.part.high << by | from.part.low >> (64 - by);
    }
    return to.all;
}

whole __lshrti3(whole number, int by) {
    parts from = {number}, to;
    if (by == 0)
        return number;
    if (by & 64) {
        to.part.high = 0;
        to.part.low = from.part.high >> (by & 63);
    } else {
        to.part.high = from.part.high >> by;
        to.part.low = from.part.low >> by | from.part.high << (64 - by);
    }
    return to.all;
}

/* The product of two halves, from products of quarters. */
static whole product(half one, half other) {
    half mask = 0xffffffff, a = one & mask, b = one >> 32, c = other & mask, d = other >> 32;
    half low = a * c, middle = a * d + (low >> 32), more = b * c + (middle & mask);
    parts to;
    to.part.low = more << 32 | (low & mask);
    to.part.high = b * d + (middle >> 32) + (more >> 32);
    return to.all;
}

whole __multi3(whole one, whole other) {
    parts a = {one}, b = {other}, to = {product(a.part.low, b.part.low)};
    to.part.high += a.part.low * b.part.high + a.part.high * b.part.low;
    return to.all;
}
