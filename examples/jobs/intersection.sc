import stdlib;
import shared3p;
domain office shared3p;

// At place i * size(ys) + j a 1 where xs[i] is ys[j], else 0.
template <domain D : shared3p>
D uint64[[1]] matches(D uint64[[1]] xs, D uint64[[1]] ys) {
    D uint64[[1]] first (size(xs) * size(ys));
    D uint64[[1]] second (size(first));
    for (uint64 k = 0; k < size(first); k++) {
        first[k] = xs[k / size(ys)];
        second[k] = ys[k % size(ys)];
    }
    return (uint64) (first == second);
}

// How many numbers stand in both registers. The shorter one was filled with zeros, which are no numbers of it.
void main() {
    office uint64[[1]] employed = argument("employed");
    office bool[[1]] employed_known = argument("employed_known");
    office uint64[[1]] insured = argument("insured");
    office bool[[1]] insured_known = argument("insured_known");

    // an absent number of one register is different from all of the other, also from an absent one there
    office uint64[[1]] first = employed * (uint64) employed_known + (1 - (uint64) employed_known) * 0xfffffffffffffffe;
    office uint64[[1]] second = insured * (uint64) insured_known + (1 - (uint64) insured_known) * 0xffffffffffffffff;
    publish("employed", sum((uint64) employed_known));
    publish("insured", sum((uint64) insured_known));
    publish("in_both", sum(matches(first, second)));
}
