"""Where patterns occur in a text."""


def main(text: list[int], patterns: list[list[int]]) -> list[list[int]]:
    return [[i for i in range(max(len(text) - len(p) + 1, 0)) if all([text[i + j] == p[j] for j in range(len(p))])]
            for p in patterns]
