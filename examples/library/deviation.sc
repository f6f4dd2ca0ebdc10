import stdlib;
import shared3p;
domain office shared3p;

// Whether each of them is true; true of none.
template <domain D : shared3p>
D bool all(D bool[[1]] flags) { return sum((uint64) flags) == size(flags); }

// Stops unless n numbers that are at most `most` away from their mean have a sum of squares below 2^64.
void squares_fit(uint64 n, uint64 most) {
    assert(most < 0x100000000);
    uint64 square = most * most;
    assert(square == 0 || (0 - 1) / square >= n);
}

// What mean, variance and standard deviation are made of, told to the reader alone, with whether all numbers are at most `most`, so that nothing wrapped.
void main() {
    office uint64[[1]] pay = argument("pay");
    uint64 most = argument("most");

    squares_fit(size(pay), most);
    publish("within", all(pay <= most));
    publish("people", size(pay));
    publish("total", sum(pay));
    publish("squares", sum(pay * pay));
}
