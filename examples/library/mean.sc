import stdlib;
import shared3p;
domain office shared3p;

void main() {
    office uint64[[1]] region = argument("region");
    office uint64[[1]] pay = argument("pay");
    uint64 wanted = argument("wanted");
    uint64 fewest = argument("fewest");

    // of all: the sum is opened, and divided in public
    assert(size(pay) > 0);
    publish("mean", declassify(sum(pay)) / size(pay));

    // of those that are chosen: anything is told only where there are enough of them
    assert(fewest > 0);
    office uint64[[1]] here = (uint64) (region == wanted);
    bool enough = declassify(sum(here) >= fewest);
    publish("enough", enough);
    if (enough) {
        uint64 count = declassify(sum(here));
        publish("mean_there", declassify(sum(here * pay)) / count);
    }
}
