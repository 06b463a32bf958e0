// Fills the disk with small files.
#include <fstream>
#include <string>
int main() {
    for (int number = 0;; number++) {
        std::ofstream file("/tmp/" + std::to_string(number));
        if (!(file << std::string(1 << 20, 'x')) || !file.flush()) return 3;
    }
}
