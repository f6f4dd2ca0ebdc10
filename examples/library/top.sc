import shared3p;
domain office shared3p;

// The elements from place `from` up to `to`, which is not among them.
template <domain D>
D uint64[[1]] slice(D uint64[[1]] xs, uint64 from, uint64 to) {
    D uint64[[1]] part (to - from);
    for (uint64 i = from; i < to; i++) part[i - from] = xs[i];
    return part;
}

// The least power of two that is not below n.
uint64 power_of_two(uint64 n) {
    uint64 power = 1;
    while (power < n) power = power * 2;
    return power;
}

// Of each two numbers that are `apart` places apart the lesser comes first, or the greater where the place has the bit `block`.
template <domain D : shared3p>
D uint64[[1]] exchanged(D uint64[[1]] xs, uint64 apart, uint64 block) {
    uint64 half = size(xs) / 2;
    D uint64[[1]] low (half);
    D uint64[[1]] high (half);
    uint64 k = 0;
    for (uint64 i = 0; i < size(xs); i++) {
        if ((i & apart) != 0) continue;
        uint64 up = (uint64) ((i & block) == 0);
        low[k] = xs[i + apart * (1 - up)];
        high[k] = xs[i + apart * up];
        k++;
    }
    D uint64[[1]] change = (uint64) (low > high) * (high - low);
    low += change;
    high -= change;
    k = 0;
    for (uint64 i = 0; i < size(xs); i++) {
        if ((i & apart) != 0) continue;
        uint64 up = (uint64) ((i & block) == 0);
        xs[i + apart * (1 - up)] = low[k];
        xs[i + apart * up] = high[k];
        k++;
    }
    return xs;
}

// At each place the greater of two numbers.
template <domain D : shared3p>
D uint64[[1]] greater(D uint64[[1]] xs, D uint64[[1]] ys) {
    D uint64[[1]] first = (uint64) (xs > ys);
    return ys + first * (xs - ys);
}

// Of each two blocks that stand side by side, one ascending and one descending, the greater half, in an order that rises and falls once.
template <domain D : shared3p>
D uint64[[1]] halved(D uint64[[1]] xs, uint64 block) {
    D uint64[[1]] first (size(xs) / 2);
    D uint64[[1]] second (size(first));
    for (uint64 k = 0; k < size(first); k++) {
        uint64 place = k / block * 2 * block + k % block;
        first[k] = xs[place];
        second[k] = xs[place + block];
    }
    return greater(first, second);
}

// The k greatest in ascending order; zeros come first where there are fewer. Blocks of the least power of two that holds k are sorted, then of
// two blocks the greater half is kept and sorted, until one block is left.
template <domain D : shared3p>
D uint64[[1]] top(D uint64[[1]] xs, uint64 k) {
    uint64 kept = power_of_two(k);
    uint64 room = power_of_two(size(xs));
    if (room < kept) room = kept;
    uint64[[1]] fill (room - size(xs));
    xs = cat(xs, fill);
    for (uint64 block = 2; block <= kept; block *= 2)
        for (uint64 apart = block / 2; apart > 0; apart = apart / 2) xs = exchanged(xs, apart, block);
    while (size(xs) > kept) {
        xs = halved(xs, kept);
        for (uint64 apart = kept / 2; apart > 0; apart = apart / 2) xs = exchanged(xs, apart, kept);
    }
    return slice(xs, kept - k, kept);
}

void main() {
    office uint64[[1]] pay = argument("pay");
    uint64 k = argument("k");

    publish("top", top(pay, k));
}
