// Four children at once. Each takes less than the time that there is, and nobody waits until they are over.
#include <ctime>
#include <iostream>
#include <unistd.h>
int main() {
    long long a, b;
    int ready[2];
    char done;
    std::cin >> a >> b;
    if (pipe(ready) != 0) return 1;
    for (int number = 0; number < 4; number++)
        if (fork() == 0) {
            while (clock() < 0.5 * CLOCKS_PER_SEC) {
            }
            if (write(ready[1], "x", 1) == 1) pause();
        }
    for (int number = 0; number < 4; number++)
        if (read(ready[0], &done, 1) != 1) return 1;
    std::cout << a + b;
}
