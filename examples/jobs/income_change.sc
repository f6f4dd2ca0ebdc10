import stdlib;
import shared3p;
domain office shared3p;

// Of each branch of at least `fewest` people: how many they are, how many of them earn less than before, by how much the incomes of all changed, and by how
// much those of the latter did. Of a branch of fewer people zeros are told. Whose income fell is a private sign, which nobody learns.
void main() {
    office uint64[[1]] branch = argument("branch");
    office int64[[1]] before = argument("before");
    office int64[[1]] after = argument("after");
    uint64 branches = argument("branches");
    uint64 fewest = argument("fewest");

    assert(size(branch) == size(before) && size(before) == size(after));
    int64 zero;
    office int64[[1]] change = after - before;
    office bool[[1]] falls = change < zero;
    office int64[[1]] fall = change * (int64) falls;
    office uint64[[1]] people (branches);
    office uint64[[1]] poorer (branches);
    office int64[[1]] changes (branches);
    office int64[[1]] losses (branches);
    for (uint64 code = 0; code < branches; code++) {
        office bool[[1]] here = branch == code;
        office int64[[1]] chosen = (int64) here;
        office uint64 count = sum((uint64) here);
        office bool enough = count >= fewest;
        people[code] = (uint64) enough * count;
        poorer[code] = (uint64) enough * sum((uint64) (here & falls));
        changes[code] = (int64) enough * sum(chosen * change);
        losses[code] = (int64) enough * sum(chosen * fall);
    }
    publish("people", people);
    publish("poorer", poorer);
    publish("change", changes);
    publish("lost", losses);
}
