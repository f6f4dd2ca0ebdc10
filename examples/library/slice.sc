import shared3p;
domain office shared3p;

// The elements from place `from` up to `to`, which is not among them.
template <domain D>
D uint64[[1]] slice(D uint64[[1]] xs, uint64 from, uint64 to) {
    D uint64[[1]] part (to - from);
    for (uint64 i = from; i < to; i++) part[i - from] = xs[i];
    return part;
}

// The elements at these places, in the order of the places.
template <domain D>
D uint64[[1]] gather(D uint64[[1]] xs, uint64[[1]] places) {
    D uint64[[1]] taken (size(places));
    for (uint64 i = 0; i < size(places); i++) taken[i] = xs[places[i]];
    return taken;
}

// The numbers 0, 1, .. up to n, which is not among them.
uint64[[1]] indices(uint64 n) {
    uint64[[1]] found (n);
    for (uint64 i = 0; i < n; i++) found[i] = i;
    return found;
}

void main() {
    office uint64[[1]] pay = argument("pay");
    uint64 from = argument("from");
    uint64 to = argument("to");

    uint64 n = size(pay);
    publish("slice", slice(pay, from, to));
    publish("reversed", gather(pay, n - 1 - indices(n)));
    publish("every_second", gather(pay, 2 * indices((n + 1) / 2)));
}
