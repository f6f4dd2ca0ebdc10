import shared3p;
domain p shared3p;

// The first value where `take` is true, else the second, without telling which.
template <domain D>
D uint64 chosen(D bool take, D uint64 first, D uint64 second) {
    D uint64 one = (uint64) take;
    return one * first + (1 - one) * second;
}

// The highest of private bids and who made it. Nothing else becomes known of the bids, not even in which order they stand.
void main() {
    p uint64[[1]] bids = argument("bids");
    p uint64 highest = bids[0];
    p uint64 winner = 0;
    for (uint64 i = 1; i < size(bids); i++) {
        p bool higher = highest < bids[i];
        highest = chosen(higher, bids[i], highest);
        winner = chosen(higher, i, winner);
    }
    publish("winner", declassify(winner));
    publish("price", declassify(highest));
}
