import stdlib;
import shared3p;
domain office shared3p;

// The number at place `wanted` of all in ascending order, from 1 on, found bit by bit, where all are below 2^bits. Each question halves what it may
// be, and its answer is opened: the miners learn the result, and nothing that it doesn't tell.
template <domain D : shared3p>
uint64 at_place(D uint64[[1]] xs, uint64 wanted, uint64 bits) {
    assert(0 < wanted && wanted <= size(xs));
    uint64 step = 1;
    for (uint64 i = 1; i < bits; i++) step *= 2;
    uint64 found = 0;
    for (uint64 i = 0; i < bits; i++) {
        bool further = declassify(sum((uint64) (xs < found + step)) < wanted);
        if (further) found += step;
        step = step / 2;
    }
    return found;
}

void main() {
    office uint64[[1]] pay = argument("pay");
    uint64 bits = argument("bits");

    publish("low_median", at_place(pay, (size(pay) + 1) / 2, bits));
}
