"""comparisons.py: compares what came with what is expected, counts, and shows the first differences."""

SHOWN = 10  # differences


class Comparisons:
    def __init__(self, name, part=slice(400)):
        """A difference is shown after the name, and this part of what is compared."""
        self.name, self.part = name, part
        self.count = self.differences = 0

    def hold(self, what, expected, came):
        self.count += 1
        if came == expected:
            return
        self.differences += 1
        if self.differences <= SHOWN:
            print(f"{self.name}: {what}\n    expected {str(expected)[self.part]}\n    came     {str(came)[self.part]}")

    def verdict(self):
        """How many were as expected, or were not."""
        if self.differences:
            return f"{self.differences} of {self.count} comparisons not as expected, of which up to {SHOWN} are shown"
        return f"{self.count} comparisons as expected"
