import stdlib;
import shared3p;
domain office shared3p;

// The greater of two private numbers; which one it is isn't told.
office uint64 greater(office uint64 x, office uint64 y) {
    office uint64 first = (uint64) (x > y);
    return first * x + (1 - first) * y;
}

// The greatest of private numbers, or 0 of none.
office uint64 greatest(office uint64[[1]] xs) {
    office uint64 best = 0;
    for (uint64 i = 0; i < size(xs); i++) best = greater(best, xs[i]);
    return best;
}

// One region: how many people, their mean salary and the greatest, told only where there are enough of them. Of a region with fewer nothing
// is opened but that there are too few.
void report(office uint64[[1]] here, office uint64[[1]] salaries, uint64 least) {
    office uint64 people = sum(here);
    bool enough = declassify(people >= least);
    publish("enough", enough);
    if (!enough) return;

    office uint64[[1]] theirs = here * salaries;
    uint64 count = declassify(people);
    publish("people", count);
    publish("mean", declassify(sum(theirs)) / count);
    publish("greatest", declassify(greatest(theirs)));
}

void main() {
    office uint64[[1]] region = argument("region");
    office uint64[[1]] salary = argument("salary");
    uint64 regions = argument("regions");
    uint64 least = argument("least");

    for (uint64 r = 0; r < regions; r++) {
        publish("region", r);
        report((uint64) (region == r), salary, least);
    }
}
