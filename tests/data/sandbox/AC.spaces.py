a, b = map(int, input().split())
print("\n\n  ", a + b, "\t\n")
