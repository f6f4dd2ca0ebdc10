import stdlib;
import shared3p;
domain clinic shared3p;

// How many of all have both properties, and how many have each, told to the reader alone.
void main() {
    clinic bool[[1]] first = argument("first");
    clinic bool[[1]] second = argument("second");

    assert(size(first) == size(second));
    publish("people", size(first));
    publish("both", sum((uint64) (first & second)));
    publish("first", sum((uint64) first));
    publish("second", sum((uint64) second));
}
