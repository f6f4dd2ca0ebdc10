import stdlib;
import shared3p;
domain office shared3p;

// For each of the codes 0, 1, .. up to `codes` the values of the rows that have it, added up. Rows with another code are left out.
template <domain D : shared3p>
D uint64[[1]] by_code(D uint64[[1]] xs, D uint64[[1]] values, uint64 codes) {
    D uint64[[1]] found (codes);
    for (uint64 code = 0; code < codes; code++) found[code] = sum(values * (uint64) (xs == code));
    return found;
}

// For each person the rent of their region, of another register, which has a row for each region, in any order.
void main() {
    office uint64[[1]] region = argument("region");
    office uint64[[1]] rent_region = argument("rent_region");
    office uint64[[1]] rent = argument("rent");
    uint64 codes = argument("codes");

    publish("rent", lookup(by_code(rent_region, rent, codes), region));
}
