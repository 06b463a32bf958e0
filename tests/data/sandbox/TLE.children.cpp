// Two children, one after the other. Each takes less than the time that there is, and both together more.
#include <ctime>
#include <iostream>
#include <sys/wait.h>
#include <unistd.h>
int main() {
    long long a, b;
    std::cin >> a >> b;
    for (int number = 0; number < 2; number++)
        if (fork() == 0) {
            while (clock() < 0.7 * CLOCKS_PER_SEC) {
            }
            _exit(0);
        } else
            wait(nullptr);
    std::cout << a + b;
}
