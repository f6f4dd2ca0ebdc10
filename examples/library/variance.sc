import stdlib;
import shared3p;
domain office shared3p;

// Whether each of them is true; true of none.
template <domain D : shared3p>
D bool all(D bool[[1]] flags) { return sum((uint64) flags) == size(flags); }

// Stops unless n numbers that are at most `most` away from their mean have a sum of squares below 2^64.
void squares_fit(uint64 n, uint64 most) {
    assert(most < 0x100000000);
    uint64 square = most * most;
    assert(square == 0 || (0 - 1) / square >= n);
}

void main() {
    office uint64[[1]] pay = argument("pay");
    uint64 most = argument("most");

    // no number is over `most`, so neither is a distance to the mean; what the miners learn of this is that it holds
    assert(size(pay) > 0);
    squares_fit(size(pay), most);
    assert(declassify(all(pay <= most)));

    // a distance below zero wraps, and its square doesn't: it is that of the distance
    uint64 total = declassify(sum(pay));
    uint64 mean = total / size(pay);
    uint64 rest = total % size(pay);
    office uint64[[1]] distance = pay - mean;
    uint64 squares = declassify(sum(distance * distance));
    publish("mean", mean);
    publish("variance", (squares - (rest * rest + size(pay) - 1) / size(pay)) / size(pay));
}
