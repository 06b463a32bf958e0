// Each of its children does what it does.
#include <unistd.h>
int main() {
    for (;;) fork();
}
