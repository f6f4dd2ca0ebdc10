import stdlib;
import shared3p;
domain office shared3p;

// Each number without its sign.
template <domain D>
D int64[[1]] absolute(D int64[[1]] xs) {
    int64 zero;
    return xs - (xs + xs) * (int64) (xs < zero);
}

void main() {
    office int64[[1]] change = argument("change");        // in thousandths
    office uint64[[1]] weight = argument("weight");       // in thousandths
    uint64 bound = argument("bound");                     // in thousandths

    assert(size(change) > 0);
    int64 zero;
    publish("below_zero", change < zero);
    publish("far", sum((uint64) (absolute(change) > (int64) bound)));
    publish("less", change < (int64) weight);

    // a product of thousandths is in millionths: a thousandth of it is in thousandths again
    publish("mean", declassify(sum(change)) / (int64) size(change));
    publish("weighted", declassify(sum(change * (int64) weight)) / (int64) 1000);
}
