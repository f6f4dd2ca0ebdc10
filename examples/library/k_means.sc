import stdlib;
import shared3p;
domain office shared3p;

// Whether each of them is true; true of none.
template <domain D : shared3p>
D bool all(D bool[[1]] flags) { return sum((uint64) flags) == size(flags); }

// One step of k-means: how many points are nearest to each of the public centres, and the sums of their coordinates, told to the reader alone, whose
// quotients are the next centres. Of centres equally near the first counts. Squares of distances are below 2^64 where no coordinate is above 2^31.
void main() {
    office uint64[[1]] x = argument("x");
    office uint64[[1]] y = argument("y");
    uint64[[1]] centre_x = argument("centre_x");
    uint64[[1]] centre_y = argument("centre_y");

    assert(size(x) == size(y) && size(centre_x) == size(centre_y));
    publish("within", all(x <= 0x80000000) & all(y <= 0x80000000));
    office uint64[[1]] least (size(x)) = 0 - 1;
    office uint64[[1]] nearest (size(x));
    for (uint64 k = 0; k < size(centre_x); k++) {
        assert(centre_x[k] <= 0x80000000 && centre_y[k] <= 0x80000000);
        office uint64[[1]] far = (x - centre_x[k]) * (x - centre_x[k]) + (y - centre_y[k]) * (y - centre_y[k]);
        office uint64[[1]] nearer = (uint64) (far < least);
        least += nearer * (far - least);
        nearest += nearer * (k - nearest);
    }
    for (uint64 k = 0; k < size(centre_x); k++) {
        office uint64[[1]] here = (uint64) (nearest == k);
        publish("points", sum(here));
        publish("sum_x", sum(here * x));
        publish("sum_y", sum(here * y));
    }
}
