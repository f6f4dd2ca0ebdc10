import stdlib;
import shared3p;
domain clinic shared3p;

// Whether the share of patients who recovered is greater among the treated than among the others by at least so many points of a hundred.
// Neither how many recovered nor how large a cohort is becomes known.
void main() {
    clinic bool[[1]] treated = argument("treated");
    clinic uint64[[1]] days = argument("days");
    uint64 within = argument("within");
    uint64 points = argument("points");
    uint64 least = argument("least");

    clinic uint64[[1]] first = (uint64) treated;
    clinic uint64[[1]] recovered = (uint64) (days <= within);
    clinic uint64 first_size = sum(first);
    clinic uint64 second_size = size(days) - first_size;

    bool enough = declassify(first_size >= least & second_size >= least);
    publish("enough", enough);
    if (!enough) return;

    clinic uint64 first_well = sum(first * recovered);
    clinic uint64 second_well = sum(recovered) - first_well;

    // first_well / first_size >= second_well / second_size + points / 100, without a division
    clinic uint64 left = first_well * second_size * 100;
    clinic uint64 right = second_well * first_size * 100 + first_size * second_size * points;
    publish("better", declassify(left >= right));
}
