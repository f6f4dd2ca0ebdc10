import stdlib;
import shared3p;
domain office shared3p;

// Hundredths of a public quotient, cut off towards zero, where a hundred divisors are below 2^63.
int64 hundredths(int64 x, int64 by) {
    int64 hundred = (int64) 100;
    return hundred * (x / by) + hundred * (x % by) / by;
}

// The line that fits y by x best: its slope, and where it begins, both in hundredths.
void main() {
    office int64[[1]] x = argument("x");
    office int64[[1]] y = argument("y");

    int64 people = (int64) size(x);
    int64 sum_x = declassify(sum(x));
    int64 sum_y = declassify(sum(y));
    int64 xx = declassify(sum(x * x));
    int64 xy = declassify(sum(x * y));

    int64 zero;
    int64 spread = people * xx - sum_x * sum_x;
    assert(spread > zero);
    publish("slope", hundredths(people * xy - sum_x * sum_y, spread));
    publish("begins", hundredths(sum_y * xx - sum_x * xy, spread));
}
