import stdlib; import shared3p; domain p shared3p;
void main() {
  p uint64 a = argument("a");
  p uint64 b = argument("b");
  publish("s", declassify(a + b));
}
