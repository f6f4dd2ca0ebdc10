import stdlib;
import shared3p;
domain office shared3p;

// Whether one of them is true; false of none.
template <domain D : shared3p>
D bool any(D bool[[1]] flags) { return sum((uint64) flags) != 0; }

// Whether each of them is true; true of none.
template <domain D : shared3p>
D bool all(D bool[[1]] flags) { return sum((uint64) flags) == size(flags); }

void main() {
    office uint64[[1]] pay = argument("pay");
    uint64 limit = argument("limit");

    publish("any_above", any(pay > limit));
    publish("all_above", all(pay > limit));
}
