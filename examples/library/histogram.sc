import stdlib;
import shared3p;
domain office shared3p;

// How many elements each of the codes 0, 1, .. up to `codes` has. Elements with another code are counted nowhere.
template <domain D : shared3p>
D uint64[[1]] count_codes(D uint64[[1]] xs, uint64 codes) {
    D uint64[[1]] counts (codes);
    for (uint64 code = 0; code < codes; code++) counts[code] = sum((uint64) (xs == code));
    return counts;
}

// How many elements are below the first of the ascending edges, from each edge up to the next, and from the last one on.
template <domain D : shared3p>
D uint64[[1]] count_between(D uint64[[1]] xs, uint64[[1]] edges) {
    D uint64[[1]] counts (size(edges) + 1);
    D uint64 before = size(xs);
    for (uint64 k = 0; k < size(edges); k++) {
        D uint64 from_here = sum((uint64) (xs >= edges[k]));
        counts[k] = before - from_here;
        before = from_here;
    }
    counts[size(edges)] = before;
    return counts;
}

void main() {
    office uint64[[1]] region = argument("region");
    office uint64[[1]] pay = argument("pay");
    uint64 regions = argument("regions");
    uint64[[1]] edges = argument("edges");

    publish("regions", count_codes(region, regions));
    publish("pay", count_between(pay, edges));
}
