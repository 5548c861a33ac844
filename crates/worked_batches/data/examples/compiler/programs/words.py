"""The words of a text, each turned round, and the length of the longest."""


def main(text: list[int]) -> tuple[list[list[int]], int]:
    starts = [i for i in range(len(text)) if text[i] != 32 and (i == 0 or text[i - 1] == 32)]
    ends = [i + 1 for i in range(len(text)) if text[i] != 32 and (i + 1 == len(text) or text[i + 1] == 32)]
    found = [[text[i] for i in range(start, end)] for start, end in zip(starts, ends)]
    return [word[::-1] for word in found], max([len(word) for word in found])
