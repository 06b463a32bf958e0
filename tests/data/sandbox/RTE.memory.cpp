// Fills memory.
#include <cstring>
#include <vector>
int main() {
    std::vector<char *> kept;
    for (;;) kept.push_back((char *)memset(new char[1 << 20], 1, 1 << 20));
}
