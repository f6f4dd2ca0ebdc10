import stdlib;
import shared3p;
domain p shared3p;

// How many of the patients who take the drug have the side effect, and how many take it, each told only where at least ten take it.
void main() {
    p bool[[1]] takes_drug = argument("takes_drug");
    p bool[[1]] has_effect = argument("has_effect");
    p uint64 takers = sum((uint64) takes_drug);
    p uint64 affected = sum((uint64) (takes_drug & has_effect));
    if (declassify(takers >= 10)) {
        publish("takers", declassify(takers));
        publish("affected", declassify(affected));
    }
}
