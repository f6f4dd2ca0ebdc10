import stdlib;
import shared3p;
domain registers shared3p;

// Over all pairs of two cells, the value of the first one.
registers uint64[[1]] firsts(registers uint64[[1]] xs) {
    registers uint64[[1]] found(size(xs) * (size(xs) - 1) / 2);
    uint64 pair = 0;
    for (uint64 i = 0; i < size(xs); i++) {
        for (uint64 j = i + 1; j < size(xs); j++) {
            found[pair] = xs[i];
            pair++;
        }
    }
    return found;
}

// And that of the second one.
registers uint64[[1]] seconds(registers uint64[[1]] xs) {
    registers uint64[[1]] found(size(xs) * (size(xs) - 1) / 2);
    uint64 pair = 0;
    for (uint64 i = 0; i < size(xs); i++) {
        for (uint64 j = i + 1; j < size(xs); j++) {
            found[pair] = xs[j];
            pair++;
        }
    }
    return found;
}

// Where the first cell's mean, a sum by a count, is below the second's, without a division.
registers bool[[1]] rises(registers uint64[[1]] sums, registers uint64[[1]] counts) {
    return firsts(sums) * seconds(counts) < seconds(sums) * firsts(counts);
}

registers bool[[1]] falls(registers uint64[[1]] sums, registers uint64[[1]] counts) {
    return seconds(sums) * firsts(counts) < firsts(sums) * seconds(counts);
}

// Of each cell one register knows how many earn and what they earn together, the other how many it has and how many of them hold a degree. Of
// all pairs of cells that are large enough in both registers: in how many does the cell with the higher mean income have the higher share of
// degrees, too, and in how many the lower one? Nothing is opened; what is published are shares, for whoever puts them together.
void main() {
    registers uint64[[1]] earners = argument("earners");
    registers uint64[[1]] income = argument("income");
    registers uint64[[1]] listed = argument("listed");
    registers uint64[[1]] degrees = argument("degrees");
    uint64 least = argument("least");
    assert(size(earners) == size(listed));

    registers uint64[[1]] enough = (uint64) (earners >= least & listed >= least);
    registers uint64[[1]] compared = firsts(enough) * seconds(enough);
    registers bool[[1]] richer = rises(income, earners);
    registers bool[[1]] poorer = falls(income, earners);
    registers bool[[1]] schooled = rises(degrees, listed);
    registers bool[[1]] unschooled = falls(degrees, listed);

    publish("cells", sum(enough));
    publish("together", sum((uint64) (richer & schooled | poorer & unschooled) * compared));
    publish("against", sum((uint64) (richer & unschooled | poorer & schooled) * compared));
}
