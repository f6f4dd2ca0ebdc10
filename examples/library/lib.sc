// All functions of the programs in this folder, for `cat lib.sc my.sc`; my.sc declares its domains and has `main`.
import stdlib;
import shared3p;

// Each number without its sign.
template <domain D>
D int64[[1]] absolute(D int64[[1]] xs) {
    int64 zero;
    return xs - (xs + xs) * (int64) (xs < zero);
}

// Whether each of them is true; true of none.
template <domain D : shared3p>
D bool all(D bool[[1]] flags) { return sum((uint64) flags) == size(flags); }

// Whether one of them is true; false of none.
template <domain D : shared3p>
D bool any(D bool[[1]] flags) { return sum((uint64) flags) != 0; }

// The number at place `wanted` of all in ascending order, from 1 on, found bit by bit, where all are below 2^bits. Each question halves what it may
// be, and its answer is opened: the miners learn the result, and nothing that it doesn't tell.
template <domain D : shared3p>
uint64 at_place(D uint64[[1]] xs, uint64 wanted, uint64 bits) {
    assert(0 < wanted && wanted <= size(xs));
    uint64 step = 1;
    for (uint64 i = 1; i < bits; i++) step *= 2;
    uint64 found = 0;
    for (uint64 i = 0; i < bits; i++) {
        bool further = declassify(sum((uint64) (xs < found + step)) < wanted);
        if (further) found += step;
        step = step / 2;
    }
    return found;
}

// For each of the codes 0, 1, .. up to `codes` the values of the rows that have it, added up. Rows with another code are left out.
template <domain D : shared3p>
D uint64[[1]] by_code(D uint64[[1]] xs, D uint64[[1]] values, uint64 codes) {
    D uint64[[1]] found (codes);
    for (uint64 code = 0; code < codes; code++) found[code] = sum(values * (uint64) (xs == code));
    return found;
}

// The first number where it is true, else the second.
template <domain D : shared3p>
D uint64 choose(D bool first, D uint64 x, D uint64 y) {
    return y + (uint64) first * (x - y);
}

// The same at each place.
template <domain D : shared3p>
D uint64[[1]] choose_each(D bool[[1]] first, D uint64[[1]] xs, D uint64[[1]] ys) {
    return ys + (uint64) first * (xs - ys);
}

// How many elements are below the first of the ascending edges, from each edge up to the next, and from the last one on.
template <domain D : shared3p>
D uint64[[1]] count_between(D uint64[[1]] xs, uint64[[1]] edges) {
    D uint64[[1]] counts (size(edges) + 1);
    D uint64 before = size(xs);
    for (uint64 k = 0; k < size(edges); k++) {
        D uint64 from_here = sum((uint64) (xs >= edges[k]));
        counts[k] = before - from_here;
        before = from_here;
    }
    counts[size(edges)] = before;
    return counts;
}

// How many elements each of the codes 0, 1, .. up to `codes` has. Elements with another code are counted nowhere.
template <domain D : shared3p>
D uint64[[1]] count_codes(D uint64[[1]] xs, uint64 codes) {
    D uint64[[1]] counts (codes);
    for (uint64 code = 0; code < codes; code++) counts[code] = sum((uint64) (xs == code));
    return counts;
}

// The element at a private place, or 0 where there is no such place.
template <domain D : shared3p>
D uint64 element(D uint64[[1]] xs, D uint64 place) {
    return sum(xs * (uint64) (indices(size(xs)) == place));
}

// Of each two numbers that are `apart` places apart the lesser comes first, or the greater where the place has the bit `block`.
template <domain D : shared3p>
D uint64[[1]] exchanged(D uint64[[1]] xs, uint64 apart, uint64 block) {
    uint64 half = size(xs) / 2;
    D uint64[[1]] low (half);
    D uint64[[1]] high (half);
    uint64 k = 0;
    for (uint64 i = 0; i < size(xs); i++) {
        if ((i & apart) != 0) continue;
        uint64 up = (uint64) ((i & block) == 0);
        low[k] = xs[i + apart * (1 - up)];
        high[k] = xs[i + apart * up];
        k++;
    }
    D uint64[[1]] change = (uint64) (low > high) * (high - low);
    low += change;
    high -= change;
    k = 0;
    for (uint64 i = 0; i < size(xs); i++) {
        if ((i & apart) != 0) continue;
        uint64 up = (uint64) ((i & block) == 0);
        xs[i + apart * (1 - up)] = low[k];
        xs[i + apart * up] = high[k];
        k++;
    }
    return xs;
}

// The elements at these places, in the order of the places.
template <domain D>
D uint64[[1]] gather(D uint64[[1]] xs, uint64[[1]] places) {
    D uint64[[1]] taken (size(places));
    for (uint64 i = 0; i < size(places); i++) taken[i] = xs[places[i]];
    return taken;
}

// At each place the greater of two numbers.
template <domain D : shared3p>
D uint64[[1]] greater(D uint64[[1]] xs, D uint64[[1]] ys) {
    D uint64[[1]] first = (uint64) (xs > ys);
    return ys + first * (xs - ys);
}

// The greatest of at least one number: half of them meet the other half, until one is left.
template <domain D : shared3p>
D uint64 greatest(D uint64[[1]] xs) {
    assert(size(xs) > 0);
    while (size(xs) > 1) {
        uint64 half = size(xs) / 2;
        xs = cat(greater(slice(xs, 0, half), slice(xs, half, 2 * half)), slice(xs, 2 * half, size(xs)));
    }
    return xs[0];
}

// Of each two blocks that stand side by side, one ascending and one descending, the greater half, in an order that rises and falls once.
template <domain D : shared3p>
D uint64[[1]] halved(D uint64[[1]] xs, uint64 block) {
    D uint64[[1]] first (size(xs) / 2);
    D uint64[[1]] second (size(first));
    for (uint64 k = 0; k < size(first); k++) {
        uint64 place = k / block * 2 * block + k % block;
        first[k] = xs[place];
        second[k] = xs[place + block];
    }
    return greater(first, second);
}

// In ascending order, by merge exchange (K. E. Batcher), which needs no fill.
template <domain D : shared3p>
D uint64[[1]] in_order(D uint64[[1]] xs) {
    uint64 half = power_of_two(size(xs)) / 2;
    for (uint64 bits = half; bits > 0; bits = bits / 2) {
        xs = ordered(xs, bits, bits, 0);
        for (uint64 reach = half; reach > bits; reach = reach / 2) xs = ordered(xs, reach - bits, bits, bits);
    }
    return xs;
}

// The numbers 0, 1, .. up to n, which is not among them.
uint64[[1]] indices(uint64 n) {
    uint64[[1]] found (n);
    for (uint64 i = 0; i < n; i++) found[i] = i;
    return found;
}

// For each of xs the value that stands in the row of ys with the same key, or 0 where there is none. The keys of ys are all different.
template <domain D : shared3p>
D uint64[[1]] joined(D uint64[[1]] xs, D uint64[[1]] ys, D uint64[[1]] values) {
    D uint64[[1]] each (size(xs) * size(ys));
    for (uint64 k = 0; k < size(each); k++) each[k] = values[k % size(ys)];
    each = each * matches(xs, ys);
    D uint64[[1]] found (size(xs));
    for (uint64 k = 0; k < size(each); k++) found[k / size(ys)] += each[k];
    return found;
}

// The least of at least one number: x is less than y where 2^64 - 1 - x is greater than 2^64 - 1 - y.
template <domain D : shared3p>
D uint64 least(D uint64[[1]] xs) {
    uint64 most = 0 - 1;
    return most - greatest(most - xs);
}

// At place i * size(ys) + j a 1 where xs[i] is ys[j], else 0.
template <domain D : shared3p>
D uint64[[1]] matches(D uint64[[1]] xs, D uint64[[1]] ys) {
    D uint64[[1]] first (size(xs) * size(ys));
    D uint64[[1]] second (size(first));
    for (uint64 k = 0; k < size(first); k++) {
        first[k] = xs[k / size(ys)];
        second[k] = ys[k % size(ys)];
    }
    return (uint64) (first == second);
}

// The number at this place of the order that the ranks tell.
template <domain D : shared3p>
D uint64 of_rank(D uint64[[1]] xs, D uint64[[1]] ranks, uint64 place) {
    return sum(xs * (uint64) (ranks == place));
}

// Of each number at a place i with i & bits == wanted, and the one that is `apart` places behind it, the lesser comes first.
template <domain D : shared3p>
D uint64[[1]] ordered(D uint64[[1]] xs, uint64 apart, uint64 bits, uint64 wanted) {
    uint64 pairs = 0;
    for (uint64 i = 0; i + apart < size(xs); i++) pairs += (uint64) ((i & bits) == wanted);
    D uint64[[1]] low (pairs);
    D uint64[[1]] high (pairs);
    uint64 k = 0;
    for (uint64 i = 0; i + apart < size(xs); i++) {
        if ((i & bits) != wanted) continue;
        low[k] = xs[i];
        high[k] = xs[i + apart];
        k++;
    }
    D uint64[[1]] change = (uint64) (low > high) * (high - low);
    low += change;
    high -= change;
    k = 0;
    for (uint64 i = 0; i + apart < size(xs); i++) {
        if ((i & bits) != wanted) continue;
        xs[i] = low[k];
        xs[i + apart] = high[k];
        k++;
    }
    return xs;
}

// The least power of two that is not below n.
uint64 power_of_two(uint64 n) {
    uint64 power = 1;
    while (power < n) power = power * 2;
    return power;
}

// The least element of a sorted array that is not below `percent` of a hundred of all elements.
template <domain D>
D uint64 quantile(D uint64[[1]] ascending, uint64 percent) {
    assert(size(ascending) > 0);
    assert(0 < percent && percent <= 100);
    return ascending[(size(ascending) * percent + 99) / 100 - 1];
}

// How many numbers are less than each, or equal to it and earlier: each of 0, 1, .. once. Each pair is compared once, all in one array.
template <domain D : shared3p>
D uint64[[1]] ranks(D uint64[[1]] xs) {
    uint64 n = size(xs);
    D uint64[[1]] first (n * (n - 1) / 2);
    D uint64[[1]] second (size(first));
    uint64 k = 0;
    for (uint64 i = 0; i < n; i++)
        for (uint64 j = i + 1; j < n; j++) {
            first[k] = xs[i];
            second[k] = xs[j];
            k++;
        }
    D uint64[[1]] above = (uint64) (first > second);
    D uint64[[1]] found (n);
    k = 0;
    for (uint64 i = 0; i < n; i++)
        for (uint64 j = i + 1; j < n; j++) {
            found[i] += above[k];
            found[j] += 1 - above[k];
            k++;
        }
    return found;
}

// The elements from place `from` up to `to`, which is not among them.
template <domain D>
D uint64[[1]] slice(D uint64[[1]] xs, uint64 from, uint64 to) {
    D uint64[[1]] part (to - from);
    for (uint64 i = from; i < to; i++) part[i - from] = xs[i];
    return part;
}

// In ascending order. Numbers 2^64 - 1 fill up to a power of two; they come last and are left away.
template <domain D : shared3p>
D uint64[[1]] sorted(D uint64[[1]] xs) {
    uint64 n = size(xs);
    uint64[[1]] fill (power_of_two(n) - n) = 0 - 1;
    xs = cat(xs, fill);
    for (uint64 block = 2; block <= size(xs); block *= 2)
        for (uint64 apart = block / 2; apart > 0; apart = apart / 2) xs = exchanged(xs, apart, block);
    return slice(xs, 0, n);
}

// Stops unless n numbers that are at most `most` away from their mean have a sum of squares below 2^64.
void squares_fit(uint64 n, uint64 most) {
    assert(most < 0x100000000);
    uint64 square = most * most;
    assert(square == 0 || (0 - 1) / square >= n);
}

// The array with this number at a private place.
template <domain D : shared3p>
D uint64[[1]] stored(D uint64[[1]] xs, D uint64 place, D uint64 x) {
    D uint64[[1]] here = (uint64) (indices(size(xs)) == place);
    return xs + here * (x - xs);
}

// At each place the sum of what stands before it.
template <domain D>
D uint64[[1]] sums_before(D uint64[[1]] xs) {
    D uint64[[1]] found (size(xs));
    for (uint64 i = 1; i < size(xs); i++) found[i] = found[i - 1] + xs[i - 1];
    return found;
}

// The k greatest in ascending order; zeros come first where there are fewer. Blocks of the least power of two that holds k are sorted, then of
// two blocks the greater half is kept and sorted, until one block is left.
template <domain D : shared3p>
D uint64[[1]] top(D uint64[[1]] xs, uint64 k) {
    uint64 kept = power_of_two(k);
    uint64 room = power_of_two(size(xs));
    if (room < kept) room = kept;
    uint64[[1]] fill (room - size(xs));
    xs = cat(xs, fill);
    for (uint64 block = 2; block <= kept; block *= 2)
        for (uint64 apart = block / 2; apart > 0; apart = apart / 2) xs = exchanged(xs, apart, block);
    while (size(xs) > kept) {
        xs = halved(xs, kept);
        for (uint64 apart = kept / 2; apart > 0; apart = apart / 2) xs = exchanged(xs, apart, kept);
    }
    return slice(xs, kept - k, kept);
}
