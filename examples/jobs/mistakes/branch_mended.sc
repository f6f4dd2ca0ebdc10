import stdlib;
import shared3p;
domain clinic shared3p;

// How long those waited who waited longer than the limit.
template <domain D>
D uint64 late(D uint64[[1]] waits, uint64 limit) {
    D uint64[[1]] longer = (uint64) (waits > limit);
    return sum(longer * waits);
}

void main() {
    clinic uint64[[1]] wait = argument("wait");
    uint64 limit = argument("limit");

    publish("hours", late(wait, limit));
}
