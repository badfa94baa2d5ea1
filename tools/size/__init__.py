"""The rows of ./test-size: pages that a generator makes with their answers, and texts that other programs read back."""
