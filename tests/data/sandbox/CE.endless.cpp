// Reads without end while it is compiled.
#include "/dev/zero"
int main() {}
