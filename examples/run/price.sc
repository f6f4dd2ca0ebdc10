import shared3p;
domain shop shared3p;

// Bound to public at the first call and to the domain at the second.
template <domain D>
D uint64 cost(D uint64 units, D uint64 price) {
    return units * price;
}

void main() {
    uint64 price = 7;
    shop uint64 units = argument("units");
    publish("list", cost(2, price));
    publish("cost", declassify(cost(units, price)));
}
