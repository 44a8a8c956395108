"""What a test draws by chance: the same for the same SEED."""
import os
import random
import sys


def seeded():
    """Draws all that follows from SEED, or from a seed that is drawn itself and printed: the seed, and a generator of it."""
    seed = int(os.environ.get("SEED") or random.randrange(10**6))
    if not os.environ.get("SEED"):
        print(f"SEED={seed}", file=sys.stderr, flush=True)
    random.seed(seed)
    return seed, random.Random(seed)
