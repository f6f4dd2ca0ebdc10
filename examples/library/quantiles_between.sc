import stdlib;
import shared3p;
domain office shared3p;

// The least power of two that is not below n.
uint64 power_of_two(uint64 n) {
    uint64 power = 1;
    while (power < n) power = power * 2;
    return power;
}

// Of each number at a place i with i & bits == wanted, and the one that is `apart` places behind it, the lesser comes first.
template <domain D : shared3p>
D uint64[[1]] ordered(D uint64[[1]] xs, uint64 apart, uint64 bits, uint64 wanted) {
    uint64 pairs = 0;
    for (uint64 i = 0; i + apart < size(xs); i++) pairs += (uint64) ((i & bits) == wanted);
    D uint64[[1]] low (pairs);
    D uint64[[1]] high (pairs);
    uint64 k = 0;
    for (uint64 i = 0; i + apart < size(xs); i++) {
        if ((i & bits) != wanted) continue;
        low[k] = xs[i];
        high[k] = xs[i + apart];
        k++;
    }
    D uint64[[1]] change = (uint64) (low > high) * (high - low);
    low += change;
    high -= change;
    k = 0;
    for (uint64 i = 0; i + apart < size(xs); i++) {
        if ((i & bits) != wanted) continue;
        xs[i] = low[k];
        xs[i + apart] = high[k];
        k++;
    }
    return xs;
}

// In ascending order, by merge exchange (K. E. Batcher), which needs no fill.
template <domain D : shared3p>
D uint64[[1]] in_order(D uint64[[1]] xs) {
    uint64 half = power_of_two(size(xs)) / 2;
    for (uint64 bits = half; bits > 0; bits = bits / 2) {
        xs = ordered(xs, bits, bits, 0);
        for (uint64 reach = half; reach > bits; reach = reach / 2) xs = ordered(xs, reach - bits, bits, bits);
    }
    return xs;
}

// Of each quantile the two people between whom it stands, and how many hundredths of the way from the one to the other; the reader alone learns them.
void main() {
    office uint64[[1]] pay = argument("pay");
    uint64[[1]] percents = argument("percents");

    assert(size(pay) > 0);
    office uint64[[1]] ascending = in_order(pay);
    for (uint64 k = 0; k < size(percents); k++) {
        assert(percents[k] <= 100);
        uint64 way = (size(pay) - 1) * percents[k];
        publish("below", ascending[way / 100]);
        publish("above", ascending[(way + 99) / 100]);
        publish("hundredths", way % 100);
    }
}
