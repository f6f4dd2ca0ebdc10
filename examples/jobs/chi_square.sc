import stdlib;
import shared3p;
domain clinic shared3p;

// How many of both, of the first alone, of the second alone, and of neither; the square of the difference to what chance would give, in
// thousandths. Only these four counts are opened. Nothing wraps with up to 3,000 patients.
void main() {
    clinic bool[[1]] treated = argument("treated");
    clinic bool[[1]] recovered = argument("recovered");

    uint64 n = size(treated);
    assert(0 < n && n <= 3000);
    assert(size(recovered) == n);
    uint64 both = declassify(sum((uint64) (treated & recovered)));
    uint64 first = declassify(sum((uint64) treated)) - both;
    uint64 second = declassify(sum((uint64) recovered)) - both;
    uint64 neither = n - both - first - second;
    publish("treated_recovered", both);
    publish("treated_ill", first);
    publish("others_recovered", second);
    publish("others_ill", neither);

    uint64 columns = (both + second) * (first + neither);
    uint64 rows = (both + first) * (second + neither);
    assert(columns > 0 && rows > 0);
    // a difference below zero wraps, and its square doesn't
    uint64 difference = both * neither - first * second;
    publish("chi_square", difference * difference * n * 1000 / (rows * columns));
}
