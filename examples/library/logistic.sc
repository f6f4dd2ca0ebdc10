import stdlib;
import shared3p;
domain clinic shared3p;

// One step of a logistic regression: the two sums that tell how far the coefficients are from the best ones, told to the reader alone. Coefficients are in
// thousandths. The chance of each person is read from stairs: how many of the edges, and of the edges below zero, are not above `start + slope * dose`. A
// step counts as 1, so of `2 * size(edges)` steps half is a chance of one half.
void main() {
    clinic uint64[[1]] dose = argument("dose");
    clinic bool[[1]] answer = argument("answer");
    int64 start = argument("start");
    int64 slope = argument("slope");
    uint64[[1]] edges = argument("stairs");

    assert(size(dose) == size(answer));
    clinic int64[[1]] doses = (int64) dose;
    clinic int64[[1]] height = start + slope * doses;
    clinic int64[[1]] steps (size(dose));
    int64 zero;
    for (uint64 k = 0; k < size(edges); k++) {
        int64 edge = (int64) edges[k];
        steps += (int64) (height >= edge) + (int64) (height >= zero - edge);
    }
    clinic int64[[1]] rest = (int64) (2 * size(edges)) * (int64) answer - steps;
    publish("people", size(dose));
    publish("steps", 2 * size(edges));
    publish("rest", sum(rest));
    publish("rest_by_dose", sum(rest * doses));
}
