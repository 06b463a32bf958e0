// Right if it may write outside of /tmp.
#include <fcntl.h>
#include <iostream>
#include <string>
int main() {
    long long a, b;
    std::cin >> a >> b;
    for (std::string folder : {"@PLACE@", "/work", "/dev", "/dev/shm", "/usr", "", "/var/tmp"})
        if (open((folder + "/written").c_str(), O_CREAT | O_WRONLY, 0600) >= 0) std::cout << a + b << "\n", exit(0);
    std::cout << "nowhere\n";
}
