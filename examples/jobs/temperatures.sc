import stdlib;
import shared3p;
domain office shared3p;

// How many stations became colder, and the mean change of all, in thousandths.
void main() {
    office int64[[1]] change = argument("change");

    assert(size(change) > 0);
    int64 zero;
    publish("colder", sum((uint64) (change < zero)));
    publish("mean", declassify(sum(change)) / (int64) size(change));
}
