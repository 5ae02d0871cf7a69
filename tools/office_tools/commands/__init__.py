"""The commands, each with its words, its help and its exit codes; NAME.main does what tools/NAME does."""
