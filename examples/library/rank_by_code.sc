import stdlib;
import shared3p;
domain office shared3p;

// How many elements each of the codes 0, 1, .. up to `codes` has. Elements with another code are counted nowhere.
template <domain D : shared3p>
D uint64[[1]] count_codes(D uint64[[1]] xs, uint64 codes) {
    D uint64[[1]] counts (codes);
    for (uint64 code = 0; code < codes; code++) counts[code] = sum((uint64) (xs == code));
    return counts;
}

// At each place the sum of what stands before it.
template <domain D>
D uint64[[1]] sums_before(D uint64[[1]] xs) {
    D uint64[[1]] found (size(xs));
    for (uint64 i = 1; i < size(xs); i++) found[i] = found[i - 1] + xs[i - 1];
    return found;
}

// How many people have a lower mark than each, of the marks 0, 1, .. up to `codes`: the histogram is looked up.
void main() {
    office uint64[[1]] mark = argument("mark");
    uint64 codes = argument("codes");

    publish("below", lookup(sums_before(count_codes(mark, codes)), mark));
}
