// Makes a program that is larger than a file may be.
int main() { asm(".section .data\n.fill 1000000000, 1, 7\n.text"); }
