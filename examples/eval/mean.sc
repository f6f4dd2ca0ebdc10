import stdlib;
import shared3p;
domain p shared3p;

// The mean of private salaries. Only their sum is opened; how many there are is public.
void main() {
    p uint64[[1]] salaries = argument("salaries");
    uint64 count = size(salaries);
    assert(count != 0);
    publish("mean", declassify(sum(salaries)) / count);
}
