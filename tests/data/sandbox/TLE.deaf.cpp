// Hears no signal that it may ignore.
#include <csignal>
int main() {
    for (int number = 1; number < 65; number++) signal(number, SIG_IGN);
    for (volatile int n = 0;; n = n + 1) {
    }
}
