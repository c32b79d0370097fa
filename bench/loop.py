# The loop of loop.elan.
a = 0
b = 0
for i in range(1, 30001):
    a = (a * 3 + i % 7) % 100
    b = (b + a) // 2
print(a, b)
