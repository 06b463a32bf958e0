int main() {
    volatile int *none = nullptr;
    return *none;
}
