import shared3p;
domain shop shared3p;

// Nothing is opened: each miner hands its share of the total to the client, who adds them up.
void main() {
    shop uint64 units = argument("units");
    shop uint64 price = argument("price");
    publish("total", units * price);
}
