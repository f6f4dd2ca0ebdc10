import stdlib;
import shared3p;
domain clinic shared3p;

// How long those waited who waited longer than the limit.
template <domain D>
D uint64 late(D uint64[[1]] waits, uint64 limit) {
    D uint64 hours = 0;
    for (uint64 i = 0; i < size(waits); i++) {
        if (waits[i] > limit) hours += waits[i];
    }
    return hours;
}

void main() {
    clinic uint64[[1]] wait = argument("wait");
    uint64 limit = argument("limit");

    publish("hours", late(wait, limit));
}
