// The other unit.
int twice(int value) { return value + value; }
