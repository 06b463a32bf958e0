// Right if it may read what isn't its own.
#include <fstream>
#include <iostream>
int main() {
    long long a, b;
    std::cin >> a >> b;
    for (auto path : {"@SECRET@", "@ANSWER@", "/etc/passwd", "/proc/1/cmdline"})
        if (std::ifstream(path).get() != EOF) std::cout << a + b << "\n", exit(0);
    std::cout << "nothing\n";
}
