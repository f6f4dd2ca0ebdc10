import stdlib;
import shared3p;
domain office shared3p;

// Whether each of them is true; true of none.
template <domain D : shared3p>
D bool all(D bool[[1]] flags) { return sum((uint64) flags) == size(flags); }

// Stops unless n numbers that are at most `most` away from their mean have a sum of squares below 2^64.
void squares_fit(uint64 n, uint64 most) {
    assert(most < 0x100000000);
    uint64 square = most * most;
    assert(square == 0 || (0 - 1) / square >= n);
}

// The sums of which a line through pairs of numbers and their correlation are made, told to the reader alone. No number is above `most`.
void main() {
    office uint64[[1]] x = argument("x");
    office uint64[[1]] y = argument("y");
    uint64 most = argument("most");

    assert(size(x) == size(y));
    squares_fit(size(x), most);
    publish("within", all(x <= most) & all(y <= most));
    publish("pairs", size(x));
    publish("x", sum(x));
    publish("y", sum(y));
    publish("xx", sum(x * x));
    publish("xy", sum(x * y));
    publish("yy", sum(y * y));
}
