import stdlib;
import shared3p;
domain office shared3p;

// Whether each of them is true; true of none.
template <domain D : shared3p>
D bool all(D bool[[1]] flags) { return sum((uint64) flags) == size(flags); }

// Whether no number is further from zero than `most`, which is below 2^62.
template <domain D : shared3p>
D bool within(D int64[[1]] xs, uint64 most) { return all((uint64) (xs + (int64) most) <= 2 * most); }

// Hundredths of a public quotient, cut off towards zero, where a hundred divisors are below 2^63.
int64 hundredths(int64 x, int64 by) {
    int64 hundred = (int64) 100;
    return hundred * (x / by) + hundred * (x % by) / by;
}

// The line that fits y by x best: its slope, and its height at a public middle, both in hundredths. Squares and products are of differences from the middles,
// so they stay small where the numbers are large.
void main() {
    office int64[[1]] x = argument("x");
    office int64[[1]] y = argument("y");
    uint64 most_x = argument("most_x");
    uint64 most_y = argument("most_y");

    // within these bounds nothing wraps; what the miners learn of this is that they hold
    uint64 n = size(x);
    assert(n > 0 && size(y) == n);
    assert(most_x <= 300000000 / n && most_y <= 10000000000 / n);
    assert(declassify(within(x, most_x) & within(y, most_y)));

    // the middles are the means, cut off; what that leaves is what the differences add up to
    int64 people = (int64) n;
    int64 sum_x = declassify(sum(x));
    int64 sum_y = declassify(sum(y));
    int64 middle_x = sum_x / people;
    int64 middle_y = sum_y / people;
    int64 rest_x = sum_x % people;
    int64 rest_y = sum_y % people;
    office int64[[1]] far_x = x - middle_x;
    office int64[[1]] far_y = y - middle_y;
    int64 xx = declassify(sum(far_x * far_x));
    int64 xy = declassify(sum(far_x * far_y));
    publish("people", n);
    publish("middle_x", middle_x);
    publish("middle_y", middle_y);

    int64 zero;
    int64 spread = people * xx - rest_x * rest_x;
    assert(spread > zero);
    publish("slope", hundredths(people * xy - rest_x * rest_y, spread));
    publish("height", (int64) 100 * middle_y + hundredths(rest_y * xx - rest_x * xy, spread));
}
