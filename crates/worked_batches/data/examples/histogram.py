"""How often each of the numbers 0 to 7 comes."""
numbers = [3, 1, 4, 1, 5, 2, 6, 5, 3, 5, 0, 1]
print(f"INT ({' '.join(str(numbers.count(number)) for number in range(8))})")
