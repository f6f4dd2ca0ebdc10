import shared3p;
domain office shared3p;

// The elements from place `from` up to `to`, which is not among them.
template <domain D>
D uint64[[1]] slice(D uint64[[1]] xs, uint64 from, uint64 to) {
    D uint64[[1]] part (to - from);
    for (uint64 i = from; i < to; i++) part[i - from] = xs[i];
    return part;
}

// The least power of two that is not below n.
uint64 power_of_two(uint64 n) {
    uint64 power = 1;
    while (power < n) power = power * 2;
    return power;
}

// Of each two numbers that are `apart` places apart the lesser comes first, or the greater where the place has the bit `block`.
template <domain D : shared3p>
D uint64[[1]] exchanged(D uint64[[1]] xs, uint64 apart, uint64 block) {
    uint64 half = size(xs) / 2;
    D uint64[[1]] low (half);
    D uint64[[1]] high (half);
    uint64 k = 0;
    for (uint64 i = 0; i < size(xs); i++) {
        if ((i & apart) != 0) continue;
        uint64 up = (uint64) ((i & block) == 0);
        low[k] = xs[i + apart * (1 - up)];
        high[k] = xs[i + apart * up];
        k++;
    }
    D uint64[[1]] change = (uint64) (low > high) * (high - low);
    low += change;
    high -= change;
    k = 0;
    for (uint64 i = 0; i < size(xs); i++) {
        if ((i & apart) != 0) continue;
        uint64 up = (uint64) ((i & block) == 0);
        xs[i + apart * (1 - up)] = low[k];
        xs[i + apart * up] = high[k];
        k++;
    }
    return xs;
}

// In ascending order. Numbers 2^64 - 1 fill up to a power of two; they come last and are left away.
template <domain D : shared3p>
D uint64[[1]] sorted(D uint64[[1]] xs) {
    uint64 n = size(xs);
    uint64[[1]] fill (power_of_two(n) - n) = 0 - 1;
    xs = cat(xs, fill);
    for (uint64 block = 2; block <= size(xs); block *= 2)
        for (uint64 apart = block / 2; apart > 0; apart = apart / 2) xs = exchanged(xs, apart, block);
    return slice(xs, 0, n);
}

void main() {
    office uint64[[1]] pay = argument("pay");

    publish("sorted", sorted(pay));
}
