"""The tools: what they decide and how they end, without a proof."""
