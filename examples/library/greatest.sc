import shared3p;
domain office shared3p;

// The elements from place `from` up to `to`, which is not among them.
template <domain D>
D uint64[[1]] slice(D uint64[[1]] xs, uint64 from, uint64 to) {
    D uint64[[1]] part (to - from);
    for (uint64 i = from; i < to; i++) part[i - from] = xs[i];
    return part;
}

// At each place the greater of two numbers.
template <domain D : shared3p>
D uint64[[1]] greater(D uint64[[1]] xs, D uint64[[1]] ys) {
    D uint64[[1]] first = (uint64) (xs > ys);
    return ys + first * (xs - ys);
}

// The greatest of at least one number: half of them meet the other half, until one is left.
template <domain D : shared3p>
D uint64 greatest(D uint64[[1]] xs) {
    assert(size(xs) > 0);
    while (size(xs) > 1) {
        uint64 half = size(xs) / 2;
        xs = cat(greater(slice(xs, 0, half), slice(xs, half, 2 * half)), slice(xs, 2 * half, size(xs)));
    }
    return xs[0];
}

// The least of at least one number: x is less than y where 2^64 - 1 - x is greater than 2^64 - 1 - y.
template <domain D : shared3p>
D uint64 least(D uint64[[1]] xs) {
    uint64 most = 0 - 1;
    return most - greatest(most - xs);
}

void main() {
    office uint64[[1]] pay = argument("pay");

    publish("greatest", greatest(pay));
    publish("least", least(pay));
}
