// Right if it reaches anybody.
#include <arpa/inet.h>
#include <iostream>
#include <sys/socket.h>
int main() {
    long long a, b;
    std::cin >> a >> b;
    sockaddr_in address{AF_INET, htons(@PORT@), {htonl(INADDR_LOOPBACK)}, {}};
    int client = socket(AF_INET, SOCK_STREAM, 0);
    if (connect(client, (sockaddr *)&address, sizeof address) == 0)
        std::cout << a + b;
    else
        std::cout << "nobody";
}
