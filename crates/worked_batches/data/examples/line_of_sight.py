"""Which points of three rays can be seen: slopes are compared as fractions, without rounding."""
from fractions import Fraction

eyes = [50, 50, 10]
rays = [[40, 45, 60, 52, 75], [30, 0, 10], [9, 10, 12, 11]]
slopes = [[Fraction(height - eye, distance) for distance, height in enumerate(ray, 1)] for eye, ray in zip(eyes, rays)]
seen = [[place + 1 for place, slope in enumerate(ray) if all(slope > other for other in ray[:place])] for ray in slopes]
print(f"INT ({' '.join(str(distance) for ray in seen for distance in ray)})")
print(f"SEGDES ({' '.join(str(len(ray)) for ray in seen)})")
