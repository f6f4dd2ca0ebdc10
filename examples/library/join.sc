import stdlib;
import shared3p;
domain office shared3p;

// At place i * size(ys) + j a 1 where xs[i] is ys[j], else 0.
template <domain D : shared3p>
D uint64[[1]] matches(D uint64[[1]] xs, D uint64[[1]] ys) {
    D uint64[[1]] first (size(xs) * size(ys));
    D uint64[[1]] second (size(first));
    for (uint64 k = 0; k < size(first); k++) {
        first[k] = xs[k / size(ys)];
        second[k] = ys[k % size(ys)];
    }
    return (uint64) (first == second);
}

// For each of xs the value that stands in the row of ys with the same key, or 0 where there is none. The keys of ys are all different.
template <domain D : shared3p>
D uint64[[1]] joined(D uint64[[1]] xs, D uint64[[1]] ys, D uint64[[1]] values) {
    D uint64[[1]] each (size(xs) * size(ys));
    for (uint64 k = 0; k < size(each); k++) each[k] = values[k % size(ys)];
    each = each * matches(xs, ys);
    D uint64[[1]] found (size(xs));
    for (uint64 k = 0; k < size(each); k++) found[k / size(ys)] += each[k];
    return found;
}

void main() {
    office uint64[[1]] employed = argument("employed");
    office uint64[[1]] pay = argument("pay");
    office uint64[[1]] insured = argument("insured");

    publish("in_both", sum(matches(insured, employed)));
    publish("pay_of_insured", sum(joined(insured, employed, pay)));
}
