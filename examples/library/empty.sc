import stdlib;
import shared3p;
domain office shared3p;

void main() {
    office uint64[[1]] region = argument("region");
    office uint64[[1]] pay = argument("pay");
    uint64 wanted = argument("wanted");

    // What is public is asserted as it is. The line of an assertion that fails stands in the run's end.
    assert(size(pay) > 0);
    assert(size(pay) == size(region));

    // What is private is opened first: the miners learn this one bit.
    office uint64[[1]] here = (uint64) (region == wanted);
    assert(declassify(sum(here) != 0));
    uint64 count = declassify(sum(here));
    publish("count", count);
    publish("mean", declassify(sum(here * pay)) / count);
}
