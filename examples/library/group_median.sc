import stdlib;
import shared3p;
domain office shared3p;

// How many numbers are less than each, or equal to it and earlier: each of 0, 1, .. once. Each pair is compared once, all in one array.
template <domain D : shared3p>
D uint64[[1]] ranks(D uint64[[1]] xs) {
    uint64 n = size(xs);
    D uint64[[1]] first (n * (n - 1) / 2);
    D uint64[[1]] second (size(first));
    uint64 k = 0;
    for (uint64 i = 0; i < n; i++)
        for (uint64 j = i + 1; j < n; j++) {
            first[k] = xs[i];
            second[k] = xs[j];
            k++;
        }
    D uint64[[1]] above = (uint64) (first > second);
    D uint64[[1]] found (n);
    k = 0;
    for (uint64 i = 0; i < n; i++)
        for (uint64 j = i + 1; j < n; j++) {
            found[i] += above[k];
            found[j] += 1 - above[k];
            k++;
        }
    return found;
}

// Both medians of those people who are in one region; nobody learns who they are, or how many. Of nobody both are 0.
void main() {
    office uint64[[1]] region = argument("region");
    office uint64[[1]] pay = argument("pay");
    uint64 wanted = argument("wanted");

    // whoever isn't there gets the greatest number, and a rank above all who are
    assert(size(region) == size(pay));
    office uint64[[1]] here = (uint64) (region == wanted);
    office uint64[[1]] pay_there = here * pay;
    uint64 most = 0 - 1;
    office uint64[[1]] twice = 2 * ranks(pay_there + most * (1 - here));

    // of k people the low median has the rank (k - 1) / 2 and the high one k / 2, both rounded down
    office uint64 k = sum(here);
    office uint64[[1]] low = (uint64) (twice + 1 == k) + (uint64) (twice + 2 == k);
    office uint64[[1]] high = (uint64) (twice == k) + (uint64) (twice + 1 == k);
    publish("low_median", sum(low * pay_there));
    publish("high_median", sum(high * pay_there));
}
