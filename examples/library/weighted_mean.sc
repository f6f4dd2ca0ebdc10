import stdlib;
import shared3p;
domain office shared3p;

// Whether each of them is true; true of none.
template <domain D : shared3p>
D bool all(D bool[[1]] flags) { return sum((uint64) flags) == size(flags); }

// Stops unless n numbers that are at most `most` away from their mean have a sum of squares below 2^64.
void squares_fit(uint64 n, uint64 most) {
    assert(most < 0x100000000);
    uint64 square = most * most;
    assert(square == 0 || (0 - 1) / square >= n);
}

// The sum of the weights, and of the weighted numbers, told to the reader alone. No weight and no number is above `most`.
void main() {
    office uint64[[1]] pay = argument("pay");
    office uint64[[1]] weight = argument("weight");
    uint64 most = argument("most");

    assert(size(pay) == size(weight));
    squares_fit(size(pay), most);
    publish("within", all(pay <= most) & all(weight <= most));
    publish("weights", sum(weight));
    publish("weighted", sum(weight * pay));
}
