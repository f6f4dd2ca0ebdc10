import shared3p;
domain clinic shared3p;

// Each age is compared on shares; only how many are of age is opened.
void main() {
    clinic uint64[[1]] ages = argument("ages");
    clinic bool[[1]] adult = ages >= 18;
    publish("adults", declassify(sum((uint64) adult)));
}
