"""The book of the repository: pages of its rules, its crates and its claims, from the sources."""
