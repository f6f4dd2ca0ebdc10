import stdlib;
import shared3p;
domain clinic shared3p;

// The mean wait of the urgent patients.
void main() {
    clinic uint64[[1]] wait = argument("wait");
    clinic uint64[[1]] urgent = argument("urgent");

    uint64 count = declassify(sum(urgent));
    publish("mean", declassify(sum(urgent * wait)) / count);
}
