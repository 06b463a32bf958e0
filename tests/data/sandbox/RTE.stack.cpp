// Calls itself without end.
int deeper(int n) {
    volatile char kept[1000];
    kept[n % 1000] = 1;
    return deeper(n + 1) + kept[n % 7];
}
int main() { return deeper(0); }
