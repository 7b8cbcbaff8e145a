/* Numbers of 128 bits, as LLVM asks for them: multiplied, and shifted left and right. */
typedef unsigned long part;
typedef __int128 whole;
typedef union { whole all; struct { part low, high; } half; } wide;

whole __multi3(whole p, whole q);
whole __ashlti3(whole p, int count);
whole __lshrti3(whole p, int count);

whole __multi3(whole p, whole q) {
    const part mask = 0xffffffffu;
    wide x = {.all = p}, y = {.all = q}, found;
    part x0 = x.half.low & mask, x1 = x.half.low >> 32, y0 = y.half.low & mask, y1 = y.half.low >> 32;
    part low = x0 * y0, cross = x0 * y1, other = x1 * y0;
    part middle = (low >> 32) + (cross & mask) + (other & mask);
    found.half.low = (middle << 32) | (low & mask);
    found.half.high = x1 * y1 + (cross >> 32) + (other >> 32) + (middle >> 32);
    found.half.high += x.half.high * y.half.low + x.half.low * y.half.high;
    return found.all;
}

whole __ashlti3(whole p, int count) {
    wide x = {.all = p}, found;
    if (count & 64) {
        found.half.low = 0;
        found.half.high = x.half.low << (count & 63);
    } else if (count) {
        found.half.low = x.half.low << count;
        found.half.high = (x.half.high << count) | (x.half.low >> (64 - count));
    } else {
        return p;
    }
    return found.all;
}

whole __lshrti3(whole p, int count) {
    wide x = {.all = p}, found;
    if (count & 64) {
        found.half.high = 0;
        found.half.low = x.half.high >> (count & 63);
    } else if (count) {
        found.half.high = x.half.high >> count;
        found.half.low = (x.half.low >> count) | (x.half.high << (64 - count));
    } else {
        return p;
    }
    return found.all;
}
