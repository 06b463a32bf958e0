// A file in /tmp, as large as a program needs.
#include <fstream>
#include <iostream>
#include <string>
int main() {
    long long a, b, sum;
    std::cin >> a >> b;
    std::ofstream("/tmp/kept") << std::string(4 << 20, ' ') << a + b;
    std::ifstream("/tmp/kept") >> sum;
    std::cout << sum;
}
