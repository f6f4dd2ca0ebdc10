import stdlib;
import shared3p;
domain clinic shared3p;

// Whether each of them is true; true of none.
template <domain D : shared3p>
D bool all(D bool[[1]] flags) { return sum((uint64) flags) == size(flags); }

// What the log-rank test of two groups needs, told to the reader alone: at each time how many are still watched, and how many have the event then, of all
// and of the first group. Times are counted from 0 up to `times`.
void main() {
    clinic uint64[[1]] time = argument("time");
    clinic bool[[1]] event = argument("event");
    clinic bool[[1]] first = argument("first");
    uint64 times = argument("times");

    assert(size(time) == size(event) && size(time) == size(first));
    publish("within", all(time < times));
    clinic uint64[[1]] in_first = (uint64) first;
    clinic uint64[[1]] has_event = (uint64) event;
    clinic uint64[[1]] both = in_first * has_event;
    clinic uint64 watched = size(time);
    clinic uint64 watched_first = sum(in_first);
    for (uint64 t = 0; t < times; t++) {
        clinic uint64[[1]] now = (uint64) (time == t);
        publish("watched", watched);
        publish("watched_first", watched_first);
        publish("events", sum(now * has_event));
        publish("events_first", sum(now * both));
        watched -= sum(now);
        watched_first -= sum(now * in_first);
    }
}
