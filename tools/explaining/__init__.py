"""The parts of `tools/explain`: they say in words what a journal, or a refusal of a scenario, means."""
