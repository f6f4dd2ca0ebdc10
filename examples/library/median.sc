import stdlib;
import shared3p;
domain office shared3p;

// How many numbers are less than each, or equal to it and earlier: each of 0, 1, .. once. Each pair is compared once, all in one array.
template <domain D : shared3p>
D uint64[[1]] ranks(D uint64[[1]] xs) {
    uint64 n = size(xs);
    D uint64[[1]] first (n * (n - 1) / 2);
    D uint64[[1]] second (size(first));
    uint64 k = 0;
    for (uint64 i = 0; i < n; i++)
        for (uint64 j = i + 1; j < n; j++) {
            first[k] = xs[i];
            second[k] = xs[j];
            k++;
        }
    D uint64[[1]] above = (uint64) (first > second);
    D uint64[[1]] found (n);
    k = 0;
    for (uint64 i = 0; i < n; i++)
        for (uint64 j = i + 1; j < n; j++) {
            found[i] += above[k];
            found[j] += 1 - above[k];
            k++;
        }
    return found;
}

// The number at this place of the order that the ranks tell.
template <domain D : shared3p>
D uint64 of_rank(D uint64[[1]] xs, D uint64[[1]] ranks, uint64 place) {
    return sum(xs * (uint64) (ranks == place));
}

void main() {
    office uint64[[1]] pay = argument("pay");

    assert(size(pay) > 0);
    office uint64[[1]] order = ranks(pay);
    publish("low_median", of_rank(pay, order, (size(pay) - 1) / 2));
    publish("high_median", of_rank(pay, order, size(pay) / 2));
}
