"""Signals to try the gallery with."""
import math
import random
from typing import List


def tone(count: int, period: float, height: int) -> List[int]:
    """A sine."""
    return [round(height * math.sin(2 * math.pi * it / period)) for it in range(count)]


def noise(count: int, height: int, seed: int) -> List[int]:
    """Numbers from -height to height that are the same in each run."""
    numbers = random.Random(seed)
    return [numbers.randint(-height, height) for _ in range(count)]
