// Half of the memory that there is.
#include <iostream>
#include <vector>
int main() {
    std::vector<char> kept(128 << 20, 1);
    long long a, b;
    std::cin >> a >> b;
    std::cout << a + b + kept[5] - kept[7];
}
