import stdlib;
import shared3p;
domain office shared3p;

// The first number where it is true, else the second.
template <domain D : shared3p>
D uint64 choose(D bool first, D uint64 x, D uint64 y) {
    return y + (uint64) first * (x - y);
}

// The same at each place.
template <domain D : shared3p>
D uint64[[1]] choose_each(D bool[[1]] first, D uint64[[1]] xs, D uint64[[1]] ys) {
    return ys + (uint64) first * (xs - ys);
}

// The numbers 0, 1, .. up to n, which is not among them.
uint64[[1]] indices(uint64 n) {
    uint64[[1]] found (n);
    for (uint64 i = 0; i < n; i++) found[i] = i;
    return found;
}

// The element at a private place, or 0 where there is no such place.
template <domain D : shared3p>
D uint64 element(D uint64[[1]] xs, D uint64 place) {
    return sum(xs * (uint64) (indices(size(xs)) == place));
}

// The array with this number at a private place.
template <domain D : shared3p>
D uint64[[1]] stored(D uint64[[1]] xs, D uint64 place, D uint64 x) {
    D uint64[[1]] here = (uint64) (indices(size(xs)) == place);
    return xs + here * (x - xs);
}

void main() {
    office uint64[[1]] pay = argument("pay");
    office uint64[[1]] raised = argument("raised");
    office bool[[1]] agreed = argument("agreed");
    office uint64 place = argument("place");

    publish("first", choose(agreed[0], raised[0], pay[0]));
    publish("each", choose_each(agreed, raised, pay));
    publish("element", element(pay, place));
    publish("stored", stored(pay, place, 1));
}
