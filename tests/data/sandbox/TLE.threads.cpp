// Threads without end, each of which never ends.
#include <pthread.h>
#include <unistd.h>
void *wait(void *) {
    for (;;) pause();
}
int main() {
    pthread_t thread;
    for (;;) pthread_create(&thread, nullptr, wait, nullptr);
}
