// Reads what isn't its own while it is compiled.
#include "@SECRET@"
int main() {}
