"""The numbers of two texts that are kept as runs, and how many each has."""
texts = [[(7, 4), (9, 1)], [(5, 2), (4, 0), (1, 3)]]
decoded = [[number for number, length in runs for _ in range(length)] for runs in texts]
print(f"INT ({' '.join(str(number) for text in decoded for number in text)})")
print(f"SEGDES ({' '.join(str(len(text)) for text in decoded)})")
