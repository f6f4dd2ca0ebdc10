import stdlib;
import shared3p;
domain office shared3p;

// How many people each region has and what they earn together, told to the reader alone, who divides; a region of fewer than `fewest` people shows zeros.
void main() {
    office uint64[[1]] region = argument("region");
    office uint64[[1]] pay = argument("pay");
    uint64 regions = argument("regions");
    uint64 fewest = argument("fewest");

    assert(size(region) == size(pay));
    publish("people", size(pay));
    publish("total", sum(pay));
    for (uint64 code = 0; code < regions; code++) {
        office uint64[[1]] here = (uint64) (region == code);
        office uint64 count = sum(here);
        office uint64 enough = (uint64) (count >= fewest);
        publish("people_there", enough * count);
        publish("total_there", enough * sum(here * pay));
    }
}
